// The same model with a binary heap of events, in plain Rust.
use std::cmp::Reverse;
use std::collections::{BinaryHeap, VecDeque};

struct Pcg { state: u64, inc: u64 }
impl Pcg {
    fn new(state: u64, stream: u64) -> Pcg {
        let mut p = Pcg { state: 0, inc: (stream << 1) | 1 };
        p.state = state.wrapping_add(p.inc); p.step(); p
    }
    fn step(&mut self) { self.state = self.state.wrapping_mul(6364136223846793005).wrapping_add(self.inc); }
    fn next(&mut self) -> u32 {
        let s = self.state; self.step();
        ((((s >> 18) ^ s) >> 27) as u32).rotate_right((s >> 59) as u32)
    }
    fn draw(&mut self, mean: u64) -> u64 {
        let u = (self.next() as f64 + 0.5) / 4294967296.0;
        (-u.ln() * mean as f64) as u64
    }
}

fn main() {
    let a: Vec<u64> = std::env::args().skip(1).map(|x| x.parse().unwrap()).collect();
    let (customers, gap, service, servers, room) = (a[0], a[1], a[2], a[3] as usize, a[4] as usize);
    let mut events = BinaryHeap::new();
    let mut gaps = Pcg::new(1, 0);
    let mut services: Vec<Pcg> = (0..servers).map(|i| Pcg::new(1, 2 + i as u64)).collect();
    let mut free: VecDeque<usize> = (0..servers).collect();
    let mut waiting = VecDeque::new();
    let (mut came, mut lost, mut begun, mut waited, mut busy) = (0u64, 0u64, 0u64, 0u64, 0u64);
    let mut bars = [0u64; 32];
    let mut order = 0u64;
    events.push(Reverse((gaps.draw(gap), order, usize::MAX)));
    while let Some(Reverse((now, _, who))) = events.pop() {
        let mut begin = |server: usize, arrived: u64, events: &mut BinaryHeap<Reverse<(u64, u64, usize)>>| {
            let wait = now - arrived;
            begun += 1; waited += wait;
            bars[((wait / (service / 4)) as usize).min(31)] += 1;
            let s = services[server].draw(service);
            busy += s; order += 1;
            events.push(Reverse((now + s, order, server)));
        };
        if who == usize::MAX {
            came += 1;
            match free.pop_front() {
                Some(server) => begin(server, now, &mut events),
                None => if waiting.len() < room { waiting.push_back(now) } else { lost += 1 },
            }
            if came == customers { break; }
            order += 1;
            events.push(Reverse((now + gaps.draw(gap), order, usize::MAX)));
        } else {
            match waiting.pop_front() {
                Some(arrived) => begin(who, arrived, &mut events),
                None => free.push_back(who),
            }
        }
    }
    println!("came {came} lost {lost} begun {begun} mean wait {:.1} busy {busy}", waited as f64 / begun as f64);
    println!("{bars:?}");
}
