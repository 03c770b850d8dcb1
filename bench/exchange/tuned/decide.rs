//! Decides for each prefix once, for all clients together, by the rules of `bench/plain/tables.rs`: AS_PATH length and
//! ORIGIN behind the preference, MED among routes of one neighbour AS, then the identifier and the address of the peer.
use crate::store::{Arena, Change};
use crate::tables::Plan;

/// The client of a choice that each client gets for which none follows.
pub const EACH: u16 = u16::MAX;

// How many changes ahead of the decision the attributes are asked for.
const AHEAD: usize = 32;

/// What one client gets, or each.
pub struct Choice {
    pub route: Change,
    pub client: u16,
}

// A candidate. Its key has the preference, the AS_PATH length, ORIGIN, and the rank of its peer in the last octet: the
// lowest is best, but for MED.
struct Route {
    change: Change,
    key: u64,
    med: u32,
    neighbour: u32,
    is_restricted: bool,
}

// Of a neighbour AS the place of the route that stands for it, and whether that keeps out another one by its MED.
struct Group {
    place: usize,
    keeps_out: bool,
}

pub struct Decider<'a> {
    plan: &'a Plan,
    arenas: &'a [Arena],
    // Of each peer what its routes have in their keys: the preference, and the rank by identifier and address.
    keys: Vec<u64>,
    // Whether each peer has an AS of its own, and nobody refuses one.
    is_simple: bool,
    routes: Vec<Route>,
    groups: Vec<Group>,
}

impl<'a> Decider<'a> {
    pub fn new(plan: &'a Plan, arenas: &'a [Arena]) -> Decider<'a> {
        let peers = &plan.peers;
        let rank = |id: u32, address: u32| peers.iter().filter(|peer| (peer.id, peer.address) < (id, address)).count();
        let keys =
            peers.iter().map(|peer| u64::from(!peer.preference) << 26 | rank(peer.id, peer.address) as u64).collect();
        let mut systems: Vec<u32> = peers.iter().map(|peer| peer.asn).collect();
        systems.sort_unstable();
        let is_simple = systems.windows(2).all(|pair| pair[0] != pair[1])
            && !plan.refusals.iter().flatten().any(|is_refused| *is_refused);
        Decider { plan, arenas, keys, is_simple, routes: Vec::new(), groups: Vec::new() }
    }

    /// The choices of all prefixes with one first octet, in the order of the prefixes: what each client gets, and
    /// behind it what some clients get in its place.
    pub fn decide(&mut self, mut changes: Vec<Change>) -> Vec<Choice> {
        changes.sort_unstable();
        let mut choices = Vec::new();
        let mut later = changes.iter().skip(AHEAD);
        for changes in changes.chunk_by(|one, other| one.prefix() == other.prefix()) {
            later.by_ref().take(changes.len()).for_each(|change| self.arenas[change.peer()].prefetch(change.place()));
            if self.gather(changes) {
                self.decide_simple(&mut choices);
            } else {
                self.decide_any(&mut choices);
            }
        }
        choices
    }

    // Keeps the last change of each peer, if it leaves a candidate. Answers whether all clients may get all of these,
    // and no two have the same neighbour AS.
    fn gather(&mut self, changes: &[Change]) -> bool {
        self.routes.clear();
        let mut is_simple = self.is_simple;
        for (place, change) in changes.iter().enumerate() {
            if changes.get(place + 1).is_some_and(|next| next.prefix_and_peer() == change.prefix_and_peer()) {
                continue;
            }
            let peer = change.peer();
            let head = self.arenas[peer].head(change.place());
            if head.is_candidate() {
                is_simple &= !head.is_restricted() && head.neighbour == self.plan.peers[peer].asn;
                self.routes.push(Route {
                    change: *change,
                    key: self.keys[peer] | head.path_and_origin() << 8,
                    med: head.med,
                    neighbour: head.neighbour,
                    is_restricted: head.is_restricted(),
                });
            }
        }
        is_simple
    }

    // The best one for each client but its peer, which gets the second one.
    fn decide_simple(&self, choices: &mut Vec<Choice>) {
        let Some(best) = self.routes.iter().min_by_key(|route| route.key) else { return };
        let others = self.routes.iter().filter(|route| route.key != best.key);
        let second = others.min_by_key(|route| route.key).map_or(Change::NONE, |route| route.change);
        choices.push(Choice { route: best.change, client: EACH });
        choices.push(Choice { route: second, client: best.change.peer() as u16 });
    }

    // The choice among all rests on the chosen route, and on those that keep out another one by their MED. Each client
    // gets it to which these are permitted; each other client has a choice of its own.
    fn decide_any(&mut self, choices: &mut Vec<Choice>) {
        let mut groups = std::mem::take(&mut self.groups);
        if let Some(best) = self.choose(&mut groups, |_| true) {
            groups.retain(|group| group.keeps_out || group.place == best);
            let mut own_groups = Vec::new();
            choices.push(Choice { route: self.routes[best].change, client: EACH });
            for client in 0..self.plan.peers.len() {
                if !groups.iter().all(|group| self.permits(client, &self.routes[group.place])) {
                    let own = self.choose(&mut own_groups, |route| self.permits(client, route));
                    let route = own.map_or(Change::NONE, |place| self.routes[place].change);
                    choices.push(Choice { route, client: client as u16 });
                }
            }
        }
        self.groups = groups;
    }

    // The place of the choice among some routes, and the groups of those that are level by the first steps.
    fn choose(&self, groups: &mut Vec<Group>, takes_part: impl Fn(&Route) -> bool) -> Option<usize> {
        groups.clear();
        let mut front = u64::MAX;
        for (place, route) in self.routes.iter().enumerate() {
            if route.key >> 8 > front || !takes_part(route) {
                continue;
            }
            if route.key >> 8 < front {
                front = route.key >> 8;
                groups.clear();
            }
            self.join(groups, place);
        }
        groups.iter().map(|group| group.place).min_by_key(|place| self.routes[*place].key)
    }

    // Takes a route into the group of its neighbour AS.
    fn join(&self, groups: &mut Vec<Group>, place: usize) {
        let route = &self.routes[place];
        let Some(group) = groups.iter_mut().find(|group| self.routes[group.place].neighbour == route.neighbour) else {
            return groups.push(Group { place, keeps_out: false });
        };
        let other = &self.routes[group.place];
        group.keeps_out |= route.med != other.med;
        if (route.med, route.key) < (other.med, other.key) {
            group.place = place;
        }
    }

    fn permits(&self, client: usize, route: &Route) -> bool {
        let peer = route.change.peer();
        client != peer
            && !self.plan.refusals[client][peer]
            && (!route.is_restricted || self.permits_by_communities(client, route.change))
    }

    // A community (0, client) refuses; else (server, client) permits; else (0, server) refuses.
    fn permits_by_communities(&self, client: usize, change: Change) -> bool {
        let (client, server) = (self.plan.peers[client].asn, self.plan.asn);
        let has = |high: u32, low: u32| {
            let mut values = communities(self.arenas[change.peer()].spelling(change.place()));
            high < 65536 && low < 65536 && values.any(|value| value == high << 16 | low)
        };
        !has(0, client) && (has(server, client) || !has(0, server))
    }
}

// The values of COMMUNITIES in a canonical spelling.
fn communities(mut spelling: &[u8]) -> impl Iterator<Item = u32> {
    let mut values: &[u8] = &[];
    while let [flags, kind, length, rest @ ..] = spelling {
        let (length, rest) = match rest {
            [low, rest @ ..] if flags & 0x10 != 0 => (usize::from(u16::from_be_bytes([*length, *low])), rest),
            _ => (usize::from(*length), rest),
        };
        if *kind == 8 {
            values = &rest[..length];
        }
        spelling = &rest[length..];
    }
    values.as_chunks().0.iter().map(|octets| u32::from_be_bytes(*octets))
}
