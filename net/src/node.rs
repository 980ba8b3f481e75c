//! The carrier of one party: what its tasks have in common.

use std::collections::BTreeMap;
use std::sync::atomic::{AtomicBool, Ordering};
use std::sync::{Arc, Mutex};

use tokio::sync::Notify;

use crate::counter::Counter;
use crate::hosts::Address;
use crate::intake::{Intake, Lane};
use crate::log::Quota;
use crate::observed::Observed;
use crate::outbox::{Budget, Outbox, Shared, ROOM_IN_ALL};
use crate::party::Party;
use crate::secure::Security;
use crate::timer::Timer;
use crate::traffic::Traffic;

/// Accepted links of one party that are kept, the newest. So 256 clients leave some of a process's 1,024 descriptors.
const LINKS_OF_A_REPLICA: usize = 4;
const LINKS_OF_A_CLIENT: usize = 2;

/// Another replica, which is dialled.
pub struct Replica {
    pub party: Party,
    pub address: Address,
    pub outbox: Arc<Outbox>,
    is_reached: AtomicBool,
}

impl Replica {
    /// Whether the link that was dialled to it is up.
    pub fn is_reached(&self) -> bool {
        self.is_reached.load(Ordering::Relaxed)
    }

    pub fn set_reached(&self, is_reached: bool) {
        self.is_reached.store(is_reached, Ordering::Relaxed);
    }
}

/// A link that was accepted.
pub struct Accepted {
    pub outbox: Arc<Outbox>,
    /// Tells the link to end, since newer ones took its place.
    pub is_replaced: Notify,
}

/// What is known of a party.
struct Known {
    traffic: Arc<Traffic>,
    lane: Arc<Lane>,
    accepted: Vec<Arc<Accepted>>,
}

pub struct Node {
    pub me: Party,
    pub replicas: Vec<Arc<Replica>>,
    pub security: Security,
    pub intake: Arc<Intake>,
    pub timer: Timer,
    pub budget: Arc<Budget>,
    pub observed: Observed,
    /// For events that strangers cause.
    pub strangers: Quota,
    /// Frames of the child for parties that aren't there.
    pub unroutable: Counter,
    /// Records of the child that this carrier doesn't know.
    pub unknown_records: Counter,
    /// All records of the child.
    pub records_of_child: Counter,
    known: Mutex<BTreeMap<Party, Known>>,
    count_of_replicas: usize,
}

impl Node {
    pub fn new(me: Party, addresses: &[Address], security: Security) -> Arc<Node> {
        let (intake, budget) = (Arc::new(Intake::default()), Budget::new(ROOM_IN_ALL));
        let mut known = BTreeMap::new();
        let mut replicas = Vec::new();
        for (number, address) in (0u16..).zip(addresses) {
            let party = Party(number);
            if party == me {
                continue;
            }
            let it = Known::new(&intake);
            let outbox = Outbox::of_dialled(&budget, it.traffic.clone());
            known.insert(party, it);
            replicas.push(Arc::new(Replica {
                party,
                address: address.clone(),
                outbox,
                is_reached: AtomicBool::new(false),
            }));
        }
        Arc::new(Node {
            me,
            replicas,
            security,
            intake,
            timer: Timer::default(),
            budget,
            observed: Observed::default(),
            strangers: Quota::default(),
            unroutable: Counter::default(),
            unknown_records: Counter::default(),
            records_of_child: Counter::default(),
            known: Mutex::new(known),
            count_of_replicas: addresses.len(),
        })
    }

    /// Whether such a party may dial this one.
    pub fn may_dial(&self, party: Party) -> bool {
        party != self.me && party.is_of(self.count_of_replicas)
    }

    pub fn traffic_of(&self, party: Party) -> Arc<Traffic> {
        self.with_known(party, |it| it.traffic.clone())
    }

    pub fn lane_of(&self, party: Party) -> Arc<Lane> {
        self.with_known(party, |it| it.lane.clone())
    }

    /// A link of this party was accepted. The oldest one ends if there are too many.
    pub fn accept(&self, party: Party) -> Arc<Accepted> {
        let outbox = Outbox::of_accepted(&self.budget, self.traffic_of(party));
        let link = Arc::new(Accepted { outbox, is_replaced: Notify::new() });
        let most = if party.is_replica() { LINKS_OF_A_REPLICA } else { LINKS_OF_A_CLIENT };
        self.with_known(party, |it| {
            it.accepted.push(link.clone());
            it.traffic.link_begins();
            if it.accepted.len() > most {
                it.accepted.remove(0).is_replaced.notify_one();
            }
        });
        self.tell_links();
        link
    }

    /// An accepted link ended.
    pub fn leave(&self, party: Party, link: &Arc<Accepted>) {
        self.with_known(party, |it| {
            it.accepted.retain(|other| !Arc::ptr_eq(other, link));
            it.traffic.link_ends();
        });
        self.tell_links();
    }

    /// How many other replicas are linked. A replica counts if it is reached, and if it reaches this one, unless this
    /// is a client, which nobody dials.
    pub fn count_links(&self) -> usize {
        let reaches = |it: &Replica| !self.me.is_replica() || self.with_known(it.party, |it| !it.accepted.is_empty());
        self.replicas.iter().filter(|it| it.is_reached() && reaches(it)).count()
    }

    /// Tells the child how many replicas are linked.
    pub fn tell_links(&self) {
        self.intake.tell_links(self.count_links() as u8);
    }

    /// Puts a record where it goes: to a replica, or into each link of a client.
    pub fn send(&self, receiver: Party, record: &Shared) {
        if let Some(replica) = self.replicas.iter().find(|it| it.party == receiver) {
            return replica.outbox.put(record);
        }
        match self.known.lock().unwrap().get(&receiver) {
            Some(known) if !known.accepted.is_empty() => known.accepted.iter().for_each(|it| it.outbox.put(record)),
            _ => self.unroutable.add(1),
        }
    }

    /// The traffic of each party that is known, by party.
    pub fn traffic(&self) -> Vec<(Party, Arc<Traffic>)> {
        self.known.lock().unwrap().iter().map(|(party, it)| (*party, it.traffic.clone())).collect()
    }

    /// Room is taken for parties of the cluster alone, at most 266 of them.
    fn with_known<T>(&self, party: Party, act: impl FnOnce(&mut Known) -> T) -> T {
        act(self.known.lock().unwrap().entry(party).or_insert_with(|| Known::new(&self.intake)))
    }
}

impl Known {
    fn new(intake: &Arc<Intake>) -> Known {
        Known { traffic: Arc::new(Traffic::default()), lane: intake.lane(), accepted: Vec::new() }
    }
}

#[cfg(test)]
impl Node {
    /// Client 0 of four replicas, for tests.
    pub fn of_client() -> Arc<Node> {
        let addresses: Vec<Address> = (1..5).map(|it| format!("localhost:{it}").parse().unwrap()).collect();
        Node::new(Party(256), &addresses, Security::new(None).unwrap())
    }
}

#[cfg(test)]
mod tests {
    use super::*;

    #[test]
    fn the_newest_links_of_a_party_are_kept() {
        let node = Node::of_client();
        for (party, most) in [(Party(0), 4), (Party(300), 2)] {
            let links: Vec<_> = (0..6).map(|_| node.accept(party)).collect();
            let known = node.known.lock().unwrap();
            let kept: Vec<bool> =
                links.iter().map(|it| known[&party].accepted.iter().any(|other| Arc::ptr_eq(it, other))).collect();
            assert_eq!(kept, [vec![false; 6 - most], vec![true; most]].concat());
        }
    }

    #[test]
    fn links_come_and_go() {
        let node = Node::of_client();
        let links: Vec<_> = (0..6).map(|_| node.accept(Party(0))).collect();
        node.send(Party(0), &Shared::from(&b"to a replica"[..]));
        node.send(Party(257), &Shared::from(&b"to nobody"[..]));
        assert_eq!((node.replicas[0].outbox.bytes(), node.unroutable.get()), (12, 1));
        assert_eq!(node.traffic_of(Party(0)).links.get(), 6);
        links.iter().for_each(|it| node.leave(Party(0), it));
        assert_eq!(node.traffic_of(Party(0)).links.get(), 0);
        assert!(node.known.lock().unwrap()[&Party(0)].accepted.is_empty());
    }

    #[test]
    fn a_client_is_linked_to_replicas_that_it_reaches() {
        let node = Node::of_client();
        assert_eq!(node.count_links(), 0);
        node.replicas[1].set_reached(true);
        assert_eq!(node.count_links(), 1);
    }
}
