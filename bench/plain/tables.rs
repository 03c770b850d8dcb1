//! Plain tables with the same structures as `rs_table`: an ordered map from prefix to a cell, held routes of
//! 16 octets sorted by peer, one octet for each client. They decide as `rs_choice` does. What the first three steps
//! ask of a route by itself is found when it comes, and stands beside it. One pass by neighbour groups chooses among
//! all eligible routes, and that choice is shared by the clients to which the few routes on which it rests
//! are permitted; each other client has a pass of its own. After a change only the clients are decided anew
//! that it may touch: of a route for named clients alone these are found by the communities, which mark their ASes,
//! and one pass finds the routes among which their candidates are.
use crate::update::{Attributes, Prefix};
use std::cmp::{Ordering, Reverse};
use std::collections::BTreeMap;
use std::sync::Arc;

pub const MAX_PEERS: usize = 256;
// One mark for each value of the low eight bits of an AS number.
const MARKS: usize = 256;

pub struct Peer {
    pub asn: u32,
    pub address: u32,
    pub id: u32,
    pub preference: u32,
}

pub struct Plan {
    pub asn: u32,
    pub address: u32,
    pub peers: Vec<Peer>,
    pub refusals: Vec<Vec<bool>>,
}

impl Plan {
    /// So many peers at an exchange whose server is AS 64500, with their first AS number and address; each of
    /// preference 100, with its address as its identifier, and refusing nobody.
    pub fn of_equals(count: usize, asn: u32, address: u32) -> Plan {
        let peer = |n: u32| Peer { asn: asn + n, address: address + n, id: address + n, preference: 100 };
        Plan {
            asn: 64500,
            address: 0xC000_0201,
            peers: (0..count as u32).map(peer).collect(),
            refusals: vec![vec![false; count]; count],
        }
    }
}

pub struct Held {
    pub peer: u8,
    candidacy: Candidacy,
    path_length: u16,
    pub time: u32,
    pub attributes: Arc<Attributes>,
}

// 0 of a route that isn't eligible; else 1 and its origin, and 3 more where every other client may get it.
#[derive(Clone, Copy)]
struct Candidacy(u8);

impl Candidacy {
    fn is_eligible(self) -> bool {
        self.0 > 0
    }

    fn is_open(self) -> bool {
        self.0 > 3
    }

    fn origin(self) -> u8 {
        (self.0 - 1) % 3
    }
}

pub struct Cell {
    held: Vec<Held>,
    bests: Box<[u8]>,
}

impl Cell {
    pub fn best(&self, client: usize) -> Option<&Held> {
        let best = usize::from(self.bests[client]);
        if best == client {
            None
        } else {
            route_of(&self.held, best as u8)
        }
    }
}

// The place of the route of a peer among routes in ascending order of their peers, or where it would stand: of up to 16
// all are looked at; among more that of the peer's number, where all lower ones have a route; else by halves.
fn place_of(held: &[Held], peer: u8) -> usize {
    if held.len() <= 16 {
        return held.iter().map(|route| usize::from(route.peer < peer)).sum();
    }
    let own = usize::from(peer);
    if held.get(own).is_some_and(|route| route.peer == peer) {
        own
    } else {
        held.partition_point(|route| route.peer < peer)
    }
}

fn route_of(held: &[Held], peer: u8) -> Option<&Held> {
    held.get(place_of(held, peer)).filter(|route| route.peer == peer)
}

struct Standing {
    preference: u32,
    path_length: u32,
    origin: u8,
    neighbour: u32,
    med: u32,
    id: u32,
    address: u32,
}

impl Standing {
    // What the first three steps compare, and the last two.
    fn front(&self) -> (Reverse<u32>, u32, u8) {
        (Reverse(self.preference), self.path_length, self.origin)
    }

    fn last(&self) -> (u32, u32) {
        (self.id, self.address)
    }

    // Whether one goes before another that is level with it by the first three.
    fn outdoes_by_med(&self, other: &Standing) -> bool {
        self.neighbour == other.neighbour && (self.med, self.last()) < (other.med, other.last())
    }
}

// Of each neighbour AS the place of the route that stands for it, and whether that route keeps out another
// one by its MED.
struct Groups {
    neighbours: [u32; MAX_PEERS],
    places: [u8; MAX_PEERS],
    keep_out: [bool; MAX_PEERS],
    len: usize,
}

impl Groups {
    fn push(&mut self, place: usize, neighbour: u32) {
        self.neighbours[self.len] = neighbour;
        self.places[self.len] = place as u8;
        self.keep_out[self.len] = false;
        self.len += 1;
    }
}

fn has_community(attributes: &Attributes, high: u32, low: u32) -> bool {
    high < 65536 && low < 65536 && attributes.communities().any(|value| value == high << 16 | low)
}

// The communities are looked through once.
fn permitted_by_communities(attributes: &Attributes, server: u32, client: u32) -> bool {
    let (mut permits, mut refuses_all) = (false, false);
    for value in attributes.communities() {
        let is = |high: u32, low: u32| high < 65536 && low < 65536 && value == high << 16 | low;
        if is(0, client) {
            return false;
        }
        permits = permits || is(server, client);
        refuses_all = refuses_all || is(0, server);
    }
    permits || !refuses_all
}

// Whether a community could keep a route from some client: those that do are of AS 0.
fn may_be_restricted(attributes: &Attributes) -> bool {
    attributes.communities().any(|value| value < 65536)
}

impl Plan {
    fn eligible(&self, attributes: &Attributes) -> bool {
        attributes.next_hop != self.address && !attributes.path_has(self.asn)
    }

    fn permits(&self, client: usize, peer: usize, attributes: &Attributes) -> bool {
        let asn = self.peers[client].asn;
        client != peer && !self.refusals[client][peer] && permitted_by_communities(attributes, self.asn, asn)
    }

    fn candidacy(&self, peer: usize, attributes: &Attributes) -> Candidacy {
        if !self.eligible(attributes) {
            return Candidacy(0);
        }
        let restricted = may_be_restricted(attributes);
        let open = (0..self.peers.len()).all(|client| {
            client == peer
                || if restricted {
                    self.permits(client, peer, attributes)
                } else {
                    !self.refusals[client][peer]
                }
        });
        Candidacy(1 + attributes.origin + if open { 3 } else { 0 })
    }

    fn hold(&self, peer: usize, time: u32, attributes: Arc<Attributes>) -> Held {
        Held {
            peer: peer as u8,
            candidacy: self.candidacy(peer, &attributes),
            path_length: attributes.path_length,
            time,
            attributes,
        }
    }

    fn permits_held(&self, client: usize, held: &Held) -> bool {
        let peer = usize::from(held.peer);
        client != peer && (held.candidacy.is_open() || self.permits(client, peer, &held.attributes))
    }

    fn standing(&self, held: &Held) -> Standing {
        let sender = &self.peers[usize::from(held.peer)];
        Standing {
            preference: sender.preference,
            path_length: u32::from(held.path_length),
            origin: held.candidacy.origin(),
            neighbour: held.attributes.neighbour.unwrap_or(sender.asn),
            med: held.attributes.med.unwrap_or(0),
            id: sender.id,
            address: sender.address,
        }
    }

    // What the first three steps compare of a held route. It follows no pointer to attributes.
    fn front(&self, held: &Held) -> (Reverse<u32>, u32, u8) {
        let sender = &self.peers[usize::from(held.peer)];
        (Reverse(sender.preference), u32::from(held.path_length), held.candidacy.origin())
    }

    // Whether a held route outdoes another. Attributes are looked at only where the first three steps leave both.
    fn outdoes(&self, one: &Held, other: &Held) -> bool {
        match self.front(one).cmp(&self.front(other)) {
            Ordering::Less => true,
            Ordering::Equal => self.standing(one).outdoes_by_med(&self.standing(other)),
            Ordering::Greater => false,
        }
    }

    // The groups of those of the routes at some places that take part.
    fn groups(&self, held: &[Held], places: &Places, takes_part: impl Fn(&Held) -> bool) -> Groups {
        let mut groups = Groups {
            neighbours: [0; MAX_PEERS],
            places: [0; MAX_PEERS],
            keep_out: [false; MAX_PEERS],
            len: 0,
        };
        let mut leader: Option<Standing> = None;
        for place in places.iter() {
            let route = &held[place];
            if !takes_part(route) {
                continue;
            }
            let front = self.front(route);
            if leader.as_ref().is_some_and(|leader| front > leader.front()) {
                continue;
            }
            let one = self.standing(route);
            match &leader {
                Some(leader) if front == leader.front() => self.join(held, &mut groups, place, &one),
                _ => {
                    groups.len = 0;
                    groups.push(place, one.neighbour);
                    leader = Some(one);
                }
            }
        }
        groups
    }

    // Takes a route into the group of its neighbour AS, which is made where there is none.
    #[inline(always)]
    fn join(&self, held: &[Held], groups: &mut Groups, place: usize, one: &Standing) {
        let Some(group) =
            groups.neighbours[..groups.len].iter().position(|neighbour| *neighbour == one.neighbour)
        else {
            groups.push(place, one.neighbour);
            return;
        };
        let other = self.standing(&held[usize::from(groups.places[group])]);
        groups.keep_out[group] |= one.med != other.med;
        if (one.med, one.last()) < (other.med, other.last()) {
            groups.places[group] = place as u8;
        }
    }

    // The place of the choice.
    fn first(&self, held: &[Held], groups: &Groups) -> Option<u8> {
        groups.places[..groups.len].iter().copied().min_by_key(|place| {
            let peer = &self.peers[usize::from(held[usize::from(*place)].peer)];
            (peer.id, peer.address)
        })
    }

    // What all clients share: the places of the routes on which the choice rests, and the peer that is chosen.
    fn share(&self, held: &[Held], eligible: &Places) -> (Groups, usize, Option<u8>) {
        let mut groups = self.groups(held, eligible, |_| true);
        let first = self.first(held, &groups);
        // The choice rests on the chosen route, and on those that keep out another one of their neighbour AS.
        let mut len = 0;
        for group in 0..groups.len {
            let place = groups.places[group];
            if groups.keep_out[group] || Some(place) == first {
                groups.places[len] = place;
                len += 1;
            }
        }
        let shared = first.map(|place| held[usize::from(place)].peer);
        (groups, len, shared)
    }

    fn choose_for(&self, held: &[Held], eligible: &Places, weighing: &[u8], shared: Option<u8>, client: usize) -> u8 {
        let peer = if weighing.iter().all(|place| self.permits_held(client, &held[usize::from(*place)])) {
            shared
        } else {
            self.choose_among(held, eligible, client)
        };
        peer.unwrap_or(client as u8)
    }

    // Decides anew for the clients to which a change of one peer's route may be of matter.
    fn decide_after(&self, held: &[Held], change: &Change, bests: &mut [u8]) {
        if !change.both(held).all(|route| self.is_for_named(route)) {
            self.decide_touched(held, change, &[], bests);
            return;
        }
        let mut recipients = [false; MARKS];
        for route in change.both(held).filter(|route| route.candidacy.is_eligible()) {
            self.mark(route, &mut recipients);
        }
        self.decide_touched(held, change, &recipients, bests);
    }

    // The same where it is known which clients it may reach: those whose AS has a mark, or all where there are no marks.
    fn decide_touched(&self, held: &[Held], change: &Change, recipients: &[bool], bests: &mut [u8]) {
        let mut known = (change.peer, false);
        let peers = self.peers.len();
        let mut client = self.next_touched(held, change, bests, 0, recipients, &mut known);
        if client == peers {
            return;
        }
        let mut places = recipients.is_empty().then(|| Places::of(held, |route| route.candidacy.is_eligible()));
        let shared = places.as_ref().map(|eligible| self.share(held, eligible));
        while client < peers {
            let known_best = if shared.is_none() { self.new_best(held, change, client, bests[client]) } else { None };
            bests[client] = known_best.unwrap_or_else(|| {
                let places = places.get_or_insert_with(|| Places::of(held, |route| self.reaches_marked(route, recipients)));
                match &shared {
                    Some((groups, len, peer)) => self.choose_for(held, places, &groups.places[..*len], *peer, client),
                    None => self.choose_among(held, places, client).unwrap_or(client as u8),
                }
            });
            client = self.next_touched(held, change, bests, client + 1, recipients, &mut known);
        }
    }

    // The peer of the new route, where a client may get it, and got none or one that it is ahead of.
    fn new_best(&self, held: &[Held], change: &Change, client: usize, best: u8) -> Option<u8> {
        let one = &held[change.new?];
        if !one.candidacy.is_eligible() || !self.permits_held(client, one) {
            return None;
        }
        let was = if usize::from(best) == client {
            return Some(one.peer);
        } else if best == change.peer {
            change.old.as_ref()
        } else {
            route_of(held, best)
        };
        (self.front(one) < self.front(was?)).then_some(one.peer)
    }

    // The first client from one on to which it may be of matter.
    #[inline(always)]
    fn next_touched(
        &self,
        held: &[Held],
        change: &Change,
        bests: &[u8],
        from: usize,
        recipients: &[bool],
        known: &mut (u8, bool),
    ) -> usize {
        let mut client = self.next_reached(bests, recipients, from, known);
        while client < bests.len() && !self.is_touched(held, change, client, bests[client], known) {
            client = self.next_reached(bests, recipients, client + 1, known);
        }
        client
    }

    // Whether a route, if it may be a candidate, is for named clients alone.
    fn is_for_named(&self, route: &Held) -> bool {
        !route.candidacy.is_eligible()
            || (!route.candidacy.is_open() && has_community(&route.attributes, 0, self.asn))
    }

    // Marks the ASes of the clients of which a route for named clients may be a candidate: those that a community
    // (server's AS, client's AS) names.
    fn mark(&self, route: &Held, marks: &mut [bool; MARKS]) {
        for value in route.attributes.communities().filter(|value| value >> 16 == self.asn) {
            marks[mark_of(value)] = true;
        }
    }

    // Whether a route is eligible, and may be a candidate of a client whose AS has a mark.
    fn reaches_marked(&self, route: &Held, marks: &[bool]) -> bool {
        if !route.candidacy.is_eligible() || route.candidacy.is_open() {
            return route.candidacy.is_eligible();
        }
        let mut is_for_named = false;
        for value in route.attributes.communities() {
            if value >> 16 == self.asn && marks[mark_of(value)] {
                return true;
            }
            is_for_named = is_for_named || value == self.asn;
        }
        !is_for_named
    }

    // The peer of the choice among those of the routes at some places that a client may get.
    fn choose_among(&self, held: &[Held], places: &Places, client: usize) -> Option<u8> {
        let own = self.groups(held, places, |route| self.permits_held(client, route));
        self.first(held, &own).map(|place| held[usize::from(place)].peer)
    }

    // The next client, from one on, that isn't passed over: one whose AS has a mark; where there are no marks, one that
    // didn't get the route of which it is known that it outdoes both, or the peer of that route itself.
    fn next_reached(&self, bests: &[u8], recipients: &[bool], from: usize, known: &(u8, bool)) -> usize {
        let count = bests.len();
        if !recipients.is_empty() {
            return (from..count).find(|client| recipients[mark_of(self.peers[*client].asn)]).unwrap_or(count);
        }
        let (peer, outdoes) = *known;
        if !outdoes {
            return from;
        }
        let own = usize::from(peer);
        let end = if own < from { count } else { own.min(count) };
        (from..end).find(|client| bests[*client] != peer).unwrap_or(end)
    }

    // Whether it may be of matter to a client that got the route of a peer. Of one peer it is known whether
    // its route outdoes both.
    #[inline(always)]
    fn is_touched(
        &self,
        held: &[Held],
        change: &Change,
        client: usize,
        best: u8,
        known: &mut (u8, bool),
    ) -> bool {
        if !change.both(held).any(|route| route.candidacy.is_eligible() && self.permits_held(client, route)) {
            return false;
        }
        if known.0 != best {
            *known = (best, self.outdoes_both(held, change, best));
        }
        usize::from(best) == client || !known.1
    }

    fn outdoes_both(&self, held: &[Held], change: &Change, peer: u8) -> bool {
        let Some(one) = route_of(held, peer) else { return false };
        peer != change.peer
            && change.both(held).all(|route| !route.candidacy.is_eligible() || self.outdoes(one, route))
    }
}

// The mark of an AS.
fn mark_of(asn: u32) -> usize {
    asn as usize % MARKS
}

// Some of the places of held routes.
struct Places {
    places: [u8; MAX_PEERS],
    len: usize,
}

impl Places {
    // Those of the routes that pass a test.
    fn of(held: &[Held], passes: impl Fn(&Held) -> bool) -> Places {
        let mut places = Places { places: [0; MAX_PEERS], len: 0 };
        for place in 0..held.len() {
            if passes(&held[place]) {
                places.places[places.len] = place as u8;
                places.len += 1;
            }
        }
        places
    }

    fn iter(&self) -> impl Iterator<Item = usize> + '_ {
        self.places[..self.len].iter().map(|place| usize::from(*place))
    }
}

// A change of one peer's route: the one that went, and the place of the one that came.
struct Change {
    peer: u8,
    old: Option<Held>,
    new: Option<usize>,
}

impl Change {
    fn both<'a>(&'a self, held: &'a [Held]) -> impl Iterator<Item = &'a Held> {
        self.old.iter().chain(self.new.map(|place| &held[place]))
    }
}

pub struct Tables {
    pub plan: Arc<Plan>,
    pub cells: BTreeMap<Prefix, Cell>,
}

impl Tables {
    pub fn announce(&mut self, peer: usize, prefix: Prefix, time: u32, attributes: Arc<Attributes>) {
        let peers = self.plan.peers.len();
        let route = self.plan.hold(peer, time, attributes);
        let cell = self.cells.entry(prefix).or_insert_with(|| Cell {
            held: Vec::with_capacity(peers),
            bests: (0..peers).map(|client| client as u8).collect(),
        });
        let peer = route.peer;
        let place = place_of(&cell.held, peer);
        let old = if place < cell.held.len() && cell.held[place].peer == peer {
            Some(std::mem::replace(&mut cell.held[place], route))
        } else {
            cell.held.insert(place, route);
            None
        };
        self.plan.decide_after(&cell.held, &Change { peer, old, new: Some(place) }, &mut cell.bests);
    }

    pub fn withdraw(&mut self, peer: usize, prefix: Prefix) {
        let Some(cell) = self.cells.get_mut(&prefix) else { return };
        let place = place_of(&cell.held, peer as u8);
        let old = (place < cell.held.len() && usize::from(cell.held[place].peer) == peer)
            .then(|| cell.held.remove(place));
        if cell.held.is_empty() {
            self.cells.remove(&prefix);
        } else {
            self.plan.decide_after(&cell.held, &Change { peer: peer as u8, old, new: None }, &mut cell.bests);
        }
    }
}
