//! Time and stack of every call through the library: `cargo run --release --example bench`.
//!
//! Microseconds are the best of many. Stack is the most that a call wrote of a painted stack, the wrapper's own frames included.
use conductor::{small_plan, Conductor};
use std::fmt::Write;
use std::hint::black_box;
use std::ops::Range;
use std::time::Instant;

const REPEATS: usize = 300;
const CALLS: [&str; 15] = [
    "read",
    "read_site",
    "join",
    "write",
    "grant",
    "arrive",
    "withdraw",
    "turn",
    "turn_all",
    "preview",
    "preview_all",
    "cost",
    "rounds",
    "press",
    "small_plan",
];

/// A stack of our own, painted, on which a function is run.
mod painted {
    use std::arch::asm;
    use std::ffi::c_void;

    const PAINT: u8 = 0xc7;

    extern "C" fn run<F: FnMut()>(f: *mut c_void) {
        // SAFETY: `stack_of` passes a pointer to its own `f`, which outlives the call.
        unsafe { (*f.cast::<F>())() }
    }

    /// The bytes that `f` writes below the place where it begins.
    pub fn stack_of<F: FnMut()>(mut f: F) -> usize {
        let mut stack = vec![PAINT; 1 << 20];
        let top = (stack.as_mut_ptr() as usize + stack.len()) & !15;
        // SAFETY: the new stack is a megabyte, aligned as a call wants it, and the old one is put back after the call; r12 is kept by every C function.
        unsafe {
            asm!("mov r12, rsp", "mov rsp, {top}", "call {run}", "mov rsp, r12",
                top = in(reg) top, run = in(reg) run::<F> as *const (), in("rdi") std::ptr::from_mut(&mut f), out("r12") _, clobber_abi("C"));
        }
        let untouched = stack.iter().position(|byte| *byte != PAINT).unwrap_or(stack.len());
        stack.len() - untouched
    }
}

/// Every seventh stop is a crossing that thirty-two drones pass one after the other; the other stops are a drone's own. In form 2 all legs are the longest.
fn plan(form: usize, drones: Range<usize>, stops: usize) -> String {
    let (share, from) = if stops < 7 { (2, 1) } else { (7, 5) };
    let mut text = format!("plan={form}\nagents={}\n", drones.len());
    for d in drones {
        let _ = write!(text, "name=survey-quad-{d}\nstops={stops}\n");
        for s in 0..stops {
            let crossing = s % share == from && s < stops - 1;
            let time = if s == 0 { 0 } else { (2 * d + s) * if stops > 100 { 400 } else { 6_000 } };
            let leg = if form == 1 { String::new() } else { format!("@{}", if s == 0 { 0 } else { conductor::LEG }) };
            let _ = writeln!(text, "go={}@{time}{leg}", if crossing { d / 32 * 32 + s } else { 2000 + d * stops + s });
        }
    }
    text + "end=plan\n"
}

/// 256 near pairs in a row, the crossings among them.
fn site() -> String {
    let lines: String = (0..conductor::PAIRS).map(|a| format!("near={a},{}\n", a + 1)).collect();
    format!("site=1\npairs={}\n{lines}end=site\n", conductor::PAIRS)
}

fn taken(text: &str) -> Conductor {
    let mut field = Conductor::new();
    field.read(text.as_bytes()).expect("taken");
    field
}

struct Measured {
    field: Conductor,
    /// Two plans with half of the drones each; of one drone alone, both have it.
    halves: [Conductor; 2],
    site: String,
    text: String,
    drone: usize,
    dependency: usize,
    list: Vec<u16>,
    buffer: Vec<u8>,
}

impl Measured {
    /// The plan is read, up to `want` orders of neighbouring drones are turned, and what the calls name is looked for.
    fn new(form: usize, drones: usize, stops: usize, want: usize) -> Measured {
        let text = plan(form, 0..drones, stops);
        let mut field = taken(&text);
        let halves = [0..drones.div_ceil(2), drones / 2..drones].map(|half| taken(&plan(form, half, stops)));
        let pairs: Vec<usize> = field.dependencies().filter(|d| d.first.drone % 2 == 0 && d.waits.drone == d.first.drone + 1).map(|d| d.number).collect();
        pairs.into_iter().filter(|p| field.turn(*p).is_ok()).take(want).for_each(drop);
        let dependency = (0..field.dependency_count()).rev().find(|p| field.preview(*p).is_ok()).unwrap_or(0);
        let mut copy = field.clone();
        let list = (0..field.dependency_count()).filter(|p| copy.turn(*p).is_ok()).map(|p| p as u16).collect();
        let drone = (0..field.drone_count()).find(|d| field.clone().grant(*d).is_ok()).unwrap_or(0);
        Measured { field, halves, site: site(), text, drone, dependency, list, buffer: vec![0; conductor::TEXT] }
    }

    /// One call, by its place in CALLS, on a copy: what it would be refused by makes no difference here.
    fn call(&mut self, which: usize, on: &mut Conductor) {
        let refused = match CALLS[which] {
            "read" => on.read(self.text.as_bytes()).is_err(),
            "read_site" => on.read_site(self.site.as_bytes(), self.text.as_bytes()).is_err(),
            "join" => self.join(),
            "write" => on.write(&mut self.buffer).is_err(),
            "grant" => on.grant(self.drone).is_err(),
            "arrive" => on.arrive(self.drone).is_err(),
            "withdraw" => on.withdraw(self.drone).is_err(),
            "turn" => on.turn(self.dependency).is_err(),
            "turn_all" => on.turn_all(&self.list).is_err(),
            "preview" => on.preview(self.dependency).is_err(),
            "preview_all" => on.preview_all(&self.list).is_err(),
            "cost" => on.cost().is_err(),
            "rounds" => on.rounds().is_err(),
            "press" => on.press(None).is_err(),
            _ => small_plan(377, &mut self.buffer).is_err(),
        };
        black_box(refused);
    }

    /// In a function of its own: the new conductor lies on the stack, and not on that of the other calls.
    #[inline(never)]
    fn join(&self) -> bool {
        self.halves[0].join(&self.halves[1]).is_err()
    }

    /// The conductor before a call: an arrival needs a drone that is under way.
    fn before(&self, which: usize) -> Conductor {
        let mut copy = self.field.clone();
        if CALLS[which] == "arrive" {
            let _ = copy.grant(self.drone);
        }
        copy
    }

    fn microseconds(&mut self, which: usize) -> f64 {
        let before = self.before(which);
        let mut copy = before.clone();
        let mut best = f64::MAX;
        for _ in 0..REPEATS {
            copy.clone_from(&before);
            let start = Instant::now();
            self.call(which, &mut copy);
            best = best.min(start.elapsed().as_secs_f64() * 1e6);
        }
        best
    }

    fn stack(&mut self, which: usize) -> usize {
        let mut copy = self.before(which);
        painted::stack_of(|| self.call(which, &mut copy))
    }
}

fn main() {
    let mut most = [0; CALLS.len()];
    println!("microseconds, best of {REPEATS}");
    println!("{:>4} {:>6} {:>6} {:>6} {:>6} {}", "form", "drones", "stops", "waits", "turned", CALLS.map(|name| format!("{name:>12}")).concat());
    let sizes = [(1, 1), (8, 24), (32, 12), (32, 24), (32, 31), (32, 32), (64, 12), (64, 24), (64, 31), (64, 32)].map(|(drones, stops)| (1, drones, stops));
    for (form, drones, stops) in sizes.into_iter().chain([(2, 1, 2048), (2, 32, 32), (2, 64, 32)]) {
        for want in [0, 2 * drones] {
            let mut measured = Measured::new(form, drones, stops, want);
            let turned = measured.field.dependencies().filter(|d| d.turned).count();
            if want > 0 && turned == 0 {
                continue;
            }
            print!("{form:>4} {drones:>6} {:>6} {:>6} {turned:>6} ", drones * stops, measured.field.dependency_count());
            for (which, most) in most.iter_mut().enumerate() {
                print!("{:>12.1}", measured.microseconds(which));
                *most = measured.stack(which).max(*most);
            }
            println!();
        }
    }
    println!("bytes of stack, the most seen (the harness itself {})", painted::stack_of(|| {}));
    for (name, bytes) in CALLS.iter().zip(most) {
        println!("  {name:<12}{bytes:>7}");
    }
}
