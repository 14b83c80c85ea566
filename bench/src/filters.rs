//! The filter's calls at a full tree.
use crate::inputs::Dice;
use crate::seconds;
use miguzoryane::{Error, Filter};

/// A filter whose room is full to the last split, and the keys it was taught one by one.
fn full(levels: u32, room: u32) -> (Filter, Vec<u32>) {
    let mut filter = Filter::fresh(levels, room).expect("levels and room are good");
    let mut dice = Dice(99);
    let mut taught = Vec::new();
    let mut tries = 0;
    while tries < 2000 && filter.state().unwrap().splits < room {
        let key = dice.below(1 << levels) as u32;
        match filter.learn(key..=key) {
            Ok(()) => taught.push(key),
            Err(Error::NoRoom) => tries += 1,
            Err(error) => panic!("{error}"),
        }
    }
    (filter, taught)
}

/// Best nanoseconds of one call, of so many in a row.
fn best(reps: usize, calls: usize, mut call: impl FnMut(usize)) -> f64 {
    let all = (0..reps).map(|_| seconds(|| (0..calls).for_each(&mut call)).0);
    all.fold(f64::MAX, f64::min) * 1e9 / calls as f64
}

pub fn measure(reps: usize, calls: usize) {
    println!("| filter | call | ns |");
    println!("|---|---|---|");
    for (levels, room) in [(10, 63), (20, 4095)] {
        eprintln!("filter of {levels} levels and room {room}: filling");
        let (mut filter, taught) = full(levels, room);
        let splits = filter.state().unwrap().splits;
        let keys = 1usize << levels;
        let mut dice = Dice(7);
        let strange: Vec<u32> = (0..4096).map(|_| dice.below(keys) as u32).collect();
        let name = format!("{levels} levels, room {room}, {splits} splits");
        let show = |call: &str, ns: f64| println!("| {name} | {call} | {ns:.0} |");
        eprintln!("filter of {levels} levels and room {room}: asking, learning, arrivals, forgetting");
        show("ask, any key", best(reps, calls, |i| _ = filter.denies(strange[i % 4096]..=strange[i % 4096])));
        show(
            "ask, a key it denies",
            best(reps, calls, |i| assert!(filter.denies(taught[i % taught.len()]..=taught[i % taught.len()]).unwrap())),
        );
        show(
            "learn, a range known already",
            best(reps, calls, |i| filter.learn(taught[i % taught.len()]..=taught[i % taught.len()]).unwrap()),
        );
        show("arrival of a key not remembered", best(reps, calls, |_| filter.arrive(strange[0]).unwrap()));
        let pair = best(reps, calls, |i| {
            let key = taught[i % taught.len()];
            filter.arrive(key).unwrap();
            _ = filter.learn(key..=key);
        });
        show("arrival of a remembered key, then learning it again", pair);
        show("learn, refused for room or not", best(reps, calls, |i| _ = filter.learn(strange[i % 4096]..=strange[i % 4096])));
        show("forget, on a copy made for it", best(reps, calls, |_| filter.clone().forget().unwrap()));
        show("departure", best(reps, calls, |i| filter.depart(strange[i % 4096]).unwrap()));
        show("read", best(reps, calls, |_| _ = filter.state()));
    }
}
