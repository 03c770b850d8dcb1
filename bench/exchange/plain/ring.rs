//! A ring between two threads: one end sends, the other receives, without a lock.
use std::cell::UnsafeCell;
use std::mem::MaybeUninit;
use std::sync::atomic::{AtomicUsize, Ordering};
use std::sync::Arc;

#[repr(align(128))]
struct Padded(AtomicUsize);

struct Shared<T> {
    slots: Box<[UnsafeCell<MaybeUninit<T>>]>,
    // How many items were received, and how many sent.
    received: Padded,
    sent: Padded,
}

// Each slot is touched by one end at a time: by the sender from `sent` up to the capacity beyond `received`,
// by the receiver in between.
unsafe impl<T: Send> Sync for Shared<T> {}
unsafe impl<T: Send> Send for Shared<T> {}

pub struct Sender<T> {
    shared: Arc<Shared<T>>,
    sent: usize,
    received: usize,
}

pub struct Receiver<T> {
    shared: Arc<Shared<T>>,
    sent: usize,
    received: usize,
}

pub fn ring<T>(capacity: usize) -> (Sender<T>, Receiver<T>) {
    let slots = (0..capacity).map(|_| UnsafeCell::new(MaybeUninit::uninit())).collect();
    let shared =
        Arc::new(Shared { slots, received: Padded(AtomicUsize::new(0)), sent: Padded(AtomicUsize::new(0)) });
    (Sender { shared: Arc::clone(&shared), sent: 0, received: 0 }, Receiver { shared, sent: 0, received: 0 })
}

impl<T> Sender<T> {
    pub fn try_send(&mut self, item: T) -> Result<(), T> {
        let capacity = self.shared.slots.len();
        if self.sent - self.received == capacity {
            self.received = self.shared.received.0.load(Ordering::Acquire);
            if self.sent - self.received == capacity {
                return Err(item);
            }
        }
        unsafe { (*self.shared.slots[self.sent % capacity].get()).write(item) };
        self.sent += 1;
        self.shared.sent.0.store(self.sent, Ordering::Release);
        Ok(())
    }
}

impl<T> Receiver<T> {
    pub fn try_receive(&mut self) -> Option<T> {
        if self.sent == self.received {
            self.sent = self.shared.sent.0.load(Ordering::Acquire);
            if self.sent == self.received {
                return None;
            }
        }
        let item =
            unsafe { (*self.shared.slots[self.received % self.shared.slots.len()].get()).assume_init_read() };
        self.received += 1;
        self.shared.received.0.store(self.received, Ordering::Release);
        Some(item)
    }
}
