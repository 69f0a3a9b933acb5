// The library from Rust: a handle that is freed when it is dropped, and worlds of any `Clone` type.
use std::os::raw::c_void;

#[repr(C)]
struct Handle { engine: *mut c_void, live: u32 }
#[repr(C)]
#[derive(Clone, Copy, Debug)]
struct Answer { kind: u32, value: u32 }
#[repr(C)]
#[derive(Clone, Copy, Default)]
struct Item { is_beat: u32, from: u32, number: u32, time: u32 }

const TAKEN: u32 = 2;
const MADE: u32 = 9;
const NOT_LEGAL: u32 = 20;

extern "C" {
    fn tsync_mirror_new(t: &mut Handle, delays: *const u32, count: usize, copies: usize, length: u32, room: u32, restaggers: u32) -> Answer;
    fn tsync_mirror_free(t: &mut Handle);
    fn tsync_mirror_turn(t: &mut Handle) -> Answer;
    fn tsync_mirror_arrive(t: &mut Handle, time: u32, from: u32, number: u32) -> Answer;
    fn tsync_mirror_items(t: &mut Handle, copy: u32, place: u32, out: *mut Item, room: usize) -> Answer;
}

// A copy's world, and how many items of the copy's run it has executed.
#[derive(Clone)]
struct World<W> { world: W, executed: u32 }

struct Mirror<W: Clone> { handle: Handle, worlds: Vec<World<W>> }

impl<W: Clone> Drop for Mirror<W> {
    fn drop(&mut self) { unsafe { tsync_mirror_free(&mut self.handle) } }
}

impl<W: Clone> Mirror<W> {
    fn new(delays: &[u32], length: u32, room: u32, opening: W) -> Result<Self, u32> {
        let mut handle = Handle { engine: std::ptr::null_mut(), live: 0 };
        let world = World { world: opening, executed: 0 };
        match unsafe { tsync_mirror_new(&mut handle, delays.as_ptr(), delays.len(), delays.len(), length, room, 0) }.kind {
            MADE => Ok(Mirror { handle, worlds: vec![world; delays.len()] }),
            why => Err(why),
        }
    }
    fn follow(&mut self, repaired: u32, mut execute: impl FnMut(&mut W, &Item)) {
        for k in (0..self.worlds.len()).rev() {
            if (k as u32) < repaired { self.worlds[k] = self.worlds[k + 1].clone(); }
            let own = &mut self.worlds[k];
            let mut items = [Item::default(); 64];
            loop {
                let n = unsafe { tsync_mirror_items(&mut self.handle, k as u32, own.executed, items.as_mut_ptr(), items.len()) }.value;
                if n == 0 { break; }
                for item in &items[..n as usize] {
                    execute(&mut own.world, item);
                    own.executed += 1;
                }
            }
        }
    }
    fn turn(&mut self, execute: impl FnMut(&mut W, &Item)) -> Answer {
        let a = unsafe { tsync_mirror_turn(&mut self.handle) };
        self.follow(a.value, execute);
        a
    }
    fn arrive(&mut self, time: u32, from: u32, number: u32, execute: impl FnMut(&mut W, &Item)) -> Answer {
        let a = unsafe { tsync_mirror_arrive(&mut self.handle, time, from, number) };
        if a.kind == TAKEN { self.follow(a.value, execute); }
        a
    }
}

fn main() {
    let payloads: Vec<String> = (0..12).map(|i| format!("c{i}")).collect();
    let execute = |w: &mut Vec<String>, item: &Item| w.push(if item.is_beat == 1 { "|".into() } else { payloads[item.number as usize].clone() });
    assert_eq!(Mirror::new(&[2, 1], 8, 9, ()).err(), Some(NOT_LEGAL));
    let mut m = Mirror::new(&[0, 4], 8, 64, Vec::<String>::new()).unwrap();
    let times = [3, 1, 0, 5, 2, 6, 7, 4, 4, 0, 7, 2];
    let (mut next, mut taken) = (0, vec![]);
    for _ in 0..12 {
        m.turn(execute);
        if next < times.len() {
            if m.arrive(times[next], 0, next as u32, execute).kind == TAKEN { taken.push(next); }
            next += 1;
        }
    }
    let mut due = vec![];
    for tick in 0..8 {
        due.extend(taken.iter().filter(|i| times[**i] == tick).map(|i| payloads[*i].clone()));
        due.push("|".into());
    }
    assert!(m.worlds.iter().all(|w| w.world == due));
    println!("{}", due.join(" "));
}
