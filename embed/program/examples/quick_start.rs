//! A controller and a host in one program: the link comes up, and the host opens its administration pipe.
use host_core::Host;
use router::Controller;
use rtstd::alloc::Global;
use std::collections::VecDeque;
use swp_base::SureNv;
use trace_model::{Entry, Watch};

struct Told(&'static str);

impl Watch for Told {
    fn note(&mut self, entry: &Entry, message: &[u8]) {
        match entry {
            Entry::Up { at, .. } if self.0 != "controller" => println!("host {:02X} is up", at.link),
            Entry::Got { pid, .. } => println!("{}: pipe {pid:02X} brought {:02X}", self.0, message[0]),
            _ => {}
        }
    }

    fn short(&self) -> bool {
        false
    }
}

fn talk(clf: &mut Controller<SureNv>, card: &mut Host<SureNv>) {
    let (mut to_clf, mut to_card) = (VecDeque::new(), VecDeque::new());
    loop {
        // All frames of a step are fetched before the next one.
        to_clf.extend(std::iter::from_fn(|| card.next_out()));
        to_card.extend(std::iter::from_fn(|| clf.next_out(2)));
        if let Some(lpdu) = to_clf.pop_front() {
            clf.take(2, &lpdu, &mut Told("controller"));
        } else if let Some(lpdu) = to_card.pop_front() {
            card.take(&lpdu, &mut Told("host 02"));
        } else {
            return;
        }
    }
}

fn main() {
    let memory = || SureNv::new(Global, 65_536).unwrap();
    let mut clf = Controller::boot(Global, 1 << 2, memory()).ok().unwrap();
    let mut card = Host::boot(Global, 2, memory()).ok().unwrap();
    card.activate(0x1A2B, &mut Told("host 02"));
    talk(&mut clf, &mut card);
    clf.reset(2, None, &mut Told("controller")).unwrap();
    talk(&mut clf, &mut card);
    card.send(1, &[3], &mut Told("host 02")).unwrap();
    talk(&mut clf, &mut card);
}
