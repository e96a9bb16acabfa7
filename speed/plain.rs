// The machine of document 01 written plainly in Rust, to measure the proved one against: the same instructions, faults, queue, slices,
// channels, ALT, held offers, kept fault and outcomes. It runs the loops of crates/speed_test and writes the same lines.
//
//     rustc -O -o target/plain speed/plain.rs     (-O is opt-level 3)
//     target/plain 10000000                       all loops, as crates/speed_test/out/speed_test
//     target/plain 500000000 mixed                one of them

const NOT_PROCESS: u32 = 0x8000_0000;
const ENABLING: u32 = 0x8000_0001;
const WAITING: u32 = 0x8000_0002;
const READY: u32 = 0x8000_0003;
const NONE_SELECTED: u32 = 0xFFFF_FFFF;

#[derive(Clone, Copy, Debug)]
enum Fault { Function(u32), Operation(u32), Count(u32), Word(u32), Place(u32) }

#[derive(Debug)]
enum Outcome { Ended(u64), Waiting(u64), Spent(u64), Fault(u64, Fault) }

// A refusal of document 01: its number and the size needed.
#[derive(Debug)]
struct Refusal { number: u32, size: usize }

#[derive(Clone, Copy, Default)]
struct Cpu {
    a: u32, b: u32, c: u32, operand: u32, place: u32, workspace: u32, count: u32, front: u32, back: u32,
    running: bool, queued: bool,
}

struct Machine {
    cpu: Cpu,
    code: u32, base: u32, inputs: u32, size: usize, slice: u32,
    offers: [u32; 8],
    held: [bool; 8],
    fault: Option<Fault>,
    // The words that the present byte has written, with what they held, for a fault.
    log: [(u32, u32); 8],
    logged: usize,
}

type Done = Result<(), Fault>;

impl Machine {
    fn start(code: &[u8], memory: &mut [u32], w: u32, inputs: u32, outputs: u32, slice: u32) -> Result<Machine, Refusal> {
        let size = w as usize + inputs as usize + outputs as usize;
        if slice == 0 || slice > 65535 { return Err(Refusal { number: 15, size: 0 }); }
        if inputs > 8 || outputs > 8 { return Err(Refusal { number: 3, size: 0 }); }
        if size > 4096 || code.len() > 16384 { return Err(Refusal { number: 10, size: 0 }); }
        if memory.len() < size { return Err(Refusal { number: 11, size }); }
        memory[..w as usize].fill(0);
        memory[w as usize..size].fill(NOT_PROCESS);
        let cpu = Cpu { workspace: w, running: true, ..Cpu::default() };
        let code = code.len() as u32;
        Ok(Machine { cpu, code, base: w, inputs, size, slice, offers: [0; 8], held: [false; 8], fault: None, log: [(0, 0); 8], logged: 0 })
    }

    fn run(&mut self, code: &[u8], memory: &mut [u32], budget: u64) -> Result<Outcome, Refusal> {
        if code.len() < self.code as usize { return Err(Refusal { number: 11, size: self.code as usize }); }
        if memory.len() < self.size { return Err(Refusal { number: 11, size: self.size }); }
        if let Some(fault) = self.fault { return Ok(Outcome::Fault(0, fault)); }
        let code = &code[..self.code as usize];
        let memory = &mut memory[..self.size];
        let mut n = 0;
        loop {
            if !self.cpu.running { return Ok(Outcome::Waiting(n)); }
            if self.cpu.place == self.code { return Ok(Outcome::Ended(n)); }
            if n == budget { return Ok(Outcome::Spent(n)); }
            if let Err(fault) = self.step(code, memory) {
                self.fault = Some(fault);
                return Ok(Outcome::Fault(n, fault));
            }
            n += 1;
        }
    }

    // An action of many parts: a fault leaves the registers and words as they were before it.
    fn whole(&mut self, memory: &mut [u32], action: impl FnOnce(&mut Machine, &mut [u32]) -> Done) -> Done {
        let before = self.cpu;
        self.logged = 0;
        let done = action(self, memory).and_then(|()| self.land());
        if done.is_err() {
            self.cpu = before;
            for &(a, old) in self.log[..self.logged].iter().rev() { memory[a as usize] = old; }
        }
        done
    }

    fn peek(&self, memory: &[u32], a: u32) -> Result<u32, Fault> {
        memory.get(a as usize).copied().ok_or(Fault::Word(a))
    }

    // Writes a word of a byte that may still fault.
    fn poke(&mut self, memory: &mut [u32], a: u32, v: u32) -> Done {
        let word = memory.get_mut(a as usize).ok_or(Fault::Word(a))?;
        self.log[self.logged] = (a, *word);
        self.logged += 1;
        *word = v;
        Ok(())
    }

    fn push(&mut self, v: u32) { self.cpu.c = self.cpu.b; self.cpu.b = self.cpu.a; self.cpu.a = v; }
    fn pop(&mut self) { self.cpu.a = self.cpu.b; self.cpu.b = self.cpu.c; }
    fn reduce(&mut self, v: u32) { self.cpu.a = v; self.cpu.b = self.cpu.c; }

    fn goto(&mut self, place: u32) -> Done {
        if place > self.code { return Err(Fault::Place(place)); }
        self.cpu.place = place;
        Ok(())
    }

    // The code place is tested when the processor goes there, after all words.
    fn land(&self) -> Done {
        if self.cpu.running && self.cpu.place > self.code { Err(Fault::Place(self.cpu.place)) } else { Ok(()) }
    }

    // A process joins the back of the queue.
    fn join(&mut self, memory: &mut [u32], w: u32) -> Done {
        if self.cpu.queued { self.poke(memory, self.cpu.back.wrapping_sub(2), w)?; } else { self.cpu.front = w; }
        self.cpu.back = w;
        self.cpu.queued = true;
        Ok(())
    }

    // The processor is free: it takes the front of the queue.
    fn release(&mut self, memory: &[u32]) -> Done {
        if !self.cpu.queued { self.cpu.running = false; return Ok(()); }
        let w = self.cpu.front;
        if w == self.cpu.back { self.cpu.queued = false; } else { self.cpu.front = self.peek(memory, w.wrapping_sub(2))?; }
        self.cpu.place = self.peek(memory, w.wrapping_sub(1))?;
        self.cpu.workspace = w;
        self.cpu.count = 0;
        Ok(())
    }

    fn step(&mut self, code: &[u8], memory: &mut [u32]) -> Done {
        let Cpu { place, operand, count, .. } = self.cpu;
        let byte = *code.get(place as usize).ok_or(Fault::Place(place))?;
        self.cpu.place = place + 1;
        self.cpu.operand = 0;
        self.cpu.count = (count + 1).min(65535);
        let done = self.execute(memory, byte >> 4, operand | (byte & 15) as u32);
        if done.is_err() { self.cpu = Cpu { place, operand, count, ..self.cpu }; }
        done
    }

    // A direct function. On a fault A, B, C and W are not yet changed.
    fn execute(&mut self, memory: &mut [u32], function: u8, n: u32) -> Done {
        let local = self.cpu.workspace.wrapping_add(n);
        match function {
            0 => return self.jump(memory, self.cpu.place.wrapping_add(n)),
            1 => self.push(local),
            2 => self.cpu.operand = n << 4,
            4 => self.push(n),
            6 => self.cpu.operand = !n << 4,
            7 => { let v = self.peek(memory, local)?; self.push(v); }
            10 => if self.cpu.a == 0 { return self.goto(self.cpu.place.wrapping_add(n)); } else { self.pop(); },
            11 => self.cpu.workspace = local,
            12 => self.cpu.a = (self.cpu.a == n) as u32,
            13 => { *memory.get_mut(local as usize).ok_or(Fault::Word(local))? = self.cpu.a; self.pop(); }
            15 => return self.operate(memory, n),
            _ => return Err(Fault::Function(function as u32)),
        }
        Ok(())
    }

    // The only place where the slice can end.
    fn jump(&mut self, memory: &mut [u32], to: u32) -> Done {
        if self.cpu.count < self.slice { return self.goto(to); }
        self.whole(memory, |m, memory| {
            let w = m.cpu.workspace;
            m.poke(memory, w.wrapping_sub(1), to)?;
            m.join(memory, w)?;
            m.release(memory)?;
            if to > m.code { Err(Fault::Place(to)) } else { Ok(()) }
        })
    }

    fn operate(&mut self, memory: &mut [u32], n: u32) -> Done {
        let (a, b) = (self.cpu.a, self.cpu.b);
        match n {
            0x00 => { self.cpu.a = b; self.cpu.b = a; }
            0x04 => self.reduce(b.wrapping_sub(a)),
            0x08 => self.reduce(b.wrapping_mul(a)),
            0x09 => self.reduce((b as i32 > a as i32) as u32),
            0x1B => self.cpu.a = self.cpu.place.wrapping_add(a),
            0x33 => self.reduce(b ^ a),
            0x42 => self.push(NOT_PROCESS),
            0x46 => self.reduce(b & a),
            0x4B => self.reduce(b | a),
            0x52 => self.reduce(b.wrapping_add(a)),
            _ => return self.whole(memory, |m, memory| m.operate_process(memory, n)),
        }
        Ok(())
    }

    fn operate_process(&mut self, memory: &mut [u32], n: u32) -> Done {
        let Cpu { a, b, place, workspace: w, .. } = self.cpu;
        match n {
            0x03 => self.end_process(memory, a),
            0x07 => self.input(memory),
            0x0D => { self.poke(memory, a.wrapping_sub(1), place.wrapping_add(b))?; self.join(memory, a) }
            0x0F => self.output(memory),
            0x15 => { self.poke(memory, w.wrapping_sub(1), place)?; self.release(memory) }
            0x2F => self.disable_channel(memory),
            0x30 => { self.cpu.b = self.cpu.c; self.select(memory, b != 0) }
            0x43 => self.set_state(memory, ENABLING),
            0x44 => self.wait_alt(memory),
            0x45 => { self.cpu.place = place.wrapping_add(self.peek(memory, w)?); Ok(()) }
            0x48 => self.enable_channel(memory),
            0x49 => if a == 0 { Ok(()) } else { self.set_state(memory, READY) },
            _ => Err(Fault::Operation(n)),
        }
    }

    // W is the workspace of the PAR.
    fn end_process(&mut self, memory: &mut [u32], w: u32) -> Done {
        let left = self.peek(memory, w.wrapping_add(1))?;
        if left == 1 {
            self.cpu.place = self.peek(memory, w)?;
            self.cpu.workspace = w;
            return Ok(());
        }
        self.poke(memory, w.wrapping_add(1), left.wrapping_sub(1))?;
        self.release(memory)
    }

    // The held offer on a channel's word.
    fn held_at(&self, c: u32) -> Option<usize> {
        let k = c.wrapping_sub(self.base);
        if k < self.inputs && self.held[k as usize] { Some(k as usize) } else { None }
    }

    // The process waits at a channel.
    fn wait(&mut self, memory: &mut [u32], c: u32, message: u32) -> Done {
        let w = self.cpu.workspace;
        self.poke(memory, c, w)?;
        self.poke(memory, w.wrapping_sub(1), self.cpu.place)?;
        self.poke(memory, w.wrapping_sub(3), message)
    }

    fn input(&mut self, memory: &mut [u32]) -> Done {
        let Cpu { a, b, c, .. } = self.cpu;
        if a != 4 { return Err(Fault::Count(a)); }
        if let Some(k) = self.held_at(b) {
            self.poke(memory, c, self.offers[k])?;
            self.held[k] = false;
            return Ok(());
        }
        let p = self.peek(memory, b)?;
        if p == NOT_PROCESS {
            self.wait(memory, b, c)?;
            return self.release(memory);
        }
        let message = self.peek(memory, p.wrapping_sub(3))?;
        let value = self.peek(memory, message)?;
        self.poke(memory, c, value)?;
        self.poke(memory, b, NOT_PROCESS)?;
        self.join(memory, p)
    }

    fn output(&mut self, memory: &mut [u32]) -> Done {
        let Cpu { a, b, workspace: w, .. } = self.cpu;
        self.poke(memory, w, a)?;
        let p = self.peek(memory, b)?;
        if p == NOT_PROCESS {
            self.wait(memory, b, w)?;
            return self.release(memory);
        }
        let state = self.peek(memory, p.wrapping_sub(3))?;
        if (ENABLING..=READY).contains(&state) {
            self.wait(memory, b, w)?;
            self.poke(memory, p.wrapping_sub(3), READY)?;
            if state == WAITING { self.join(memory, p)?; }
            return self.release(memory);
        }
        self.poke(memory, state, a)?;
        self.poke(memory, b, NOT_PROCESS)?;
        self.join(memory, p)
    }

    fn set_state(&mut self, memory: &mut [u32], state: u32) -> Done {
        self.poke(memory, self.cpu.workspace.wrapping_sub(3), state)
    }

    fn enable_channel(&mut self, memory: &mut [u32]) -> Done {
        let Cpu { a, b, c, workspace: w, .. } = self.cpu;
        self.cpu.b = c;
        if a == 0 { return Ok(()); }
        if self.held_at(b).is_some() { return self.set_state(memory, READY); }
        match self.peek(memory, b)? {
            NOT_PROCESS => self.poke(memory, b, w),
            p if p == w => Ok(()),
            _ => self.set_state(memory, READY),
        }
    }

    fn wait_alt(&mut self, memory: &mut [u32]) -> Done {
        let w = self.cpu.workspace;
        self.poke(memory, w, NONE_SELECTED)?;
        if self.peek(memory, w.wrapping_sub(3))? == READY { return Ok(()); }
        self.set_state(memory, WAITING)?;
        self.poke(memory, w.wrapping_sub(1), self.cpu.place)?;
        self.release(memory)
    }

    // A ready guard's branch, at distance A, is chosen if none is yet; A says whether it was.
    fn select(&mut self, memory: &mut [u32], ready: bool) -> Done {
        let Cpu { a: branch, workspace: w, .. } = self.cpu;
        self.cpu.a = 0;
        if ready && self.peek(memory, w)? == NONE_SELECTED {
            self.poke(memory, w, branch)?;
            self.cpu.a = 1;
        }
        Ok(())
    }

    fn disable_channel(&mut self, memory: &mut [u32]) -> Done {
        let Cpu { b, c, workspace: w, .. } = self.cpu;
        if b == 0 { return self.select(memory, false); }
        let p = self.peek(memory, c)?;
        if self.held_at(c).is_some() {
            self.select(memory, true)?;
            return self.poke(memory, c, NOT_PROCESS);
        }
        if p == w { self.poke(memory, c, NOT_PROCESS)?; }
        self.select(memory, p != NOT_PROCESS && p != w)
    }
}

// The codes of crates/speed_test/src/main.rt, where each is told by its instructions.
const LOOPS: [(&str, &[u8]); 4] = [
    ("arithmetic", b"\x60\xbe\x40\xd0\x40\xd1\
        \x70\x60\x4f\xf9\x20\x20\x22\xad\
        \x71\x43\xf8\x70\x71\x23\xf3\x25\xf2\xd1\
        \x71\x70\xf9\x20\x20\x20\xa8\x71\x70\xf4\xd1\x20\x20\x20\x0b\
        \x41\x20\x20\x20\xa4\x20\x20\x20\x02\x21\xf5\
        \x70\x41\x25\xf2\xd0\x60\x2f\x2c\x0b\xb2"),
    ("mixed", b"\x60\xbd\x40\xd0\x40\xd1\x40\xd2\x60\xbf\x24\xf2\xd0\
        \x71\x60\x4f\xf9\x20\x20\x27\xa1\
        \x72\x43\xf8\x71\x72\x23\xf3\x25\xf2\xd2\
        \x72\x71\xf9\x20\x20\x20\xa8\x72\x71\xf4\xd2\x20\x20\x20\x0b\
        \x41\x20\x20\x20\xa4\x20\x20\x20\x02\x21\xf5\
        \x71\x4f\x24\xf6\x40\xf4\xc0\x20\x20\x22\xae\
        \x60\xbe\x20\x20\x21\x4c\x21\xfb\xd0\x42\xd1\x20\x20\x20\x4c\x60\x1c\xfd\
        \x74\x41\x25\xf2\x12\xf0\x60\xbf\xff\xb1\x10\xf3\
        \x19\x16\x44\xf7\x14\xf3\
        \xb2\x72\x73\x23\xf3\xd2\x20\x20\x20\x0b\
        \x41\x20\x20\x20\xa4\x20\x20\x20\x02\x21\xf5\
        \x71\x41\x25\xf2\xd1\x60\x2f\x28\x07\xb1\xb3"),
    ("communication", b"\x60\xbf\x24\xf2\xd0\
        \x60\xbe\x20\x20\x24\x44\x21\xfb\xd0\x42\xd1\x20\x20\x21\x4f\x60\x1b\xfd\
        \x60\xbf\x40\xd0\x70\x60\x4f\xf9\x20\x20\x21\xa0\
        \x70\x13\xf0\x60\xbf\xff\xb1\
        \x70\x41\x25\xf2\xd0\x60\x2f\x2e\x08\
        \xb1\x10\xf3\x60\xbe\x40\xd0\x40\xd1\
        \x41\x20\x20\x20\xad\
        \x10\x19\x44\xf7\
        \x71\x70\x25\xf2\xd1\x60\x2f\x2e\x0e\
        \xb2\x15\xf3\xb2\xb1"),
    ("alternative", b"\x60\xbe\x24\xf2\xd0\x24\xf2\xd1\
        \x60\xbe\x20\x20\x29\x4d\x21\xfb\xd0\x43\xd1\
        \x20\x20\x22\x43\x60\x1b\xfd\x20\x20\x23\x48\x60\x16\xfd\
        \x60\xbf\x40\xd0\x41\x20\x20\x21\xa0\
        \x70\x13\xf0\x60\xbf\xff\xb1\
        \x70\x41\x25\xf2\xd0\x60\x2f\x2e\x0b\
        \xb1\x10\xf3\x60\xbf\x40\xd0\x41\x20\x20\x21\xa0\
        \x70\x19\xf0\x60\xbf\xff\xb1\
        \x70\x43\x25\xf2\xd0\x60\x2f\x2e\x0b\
        \xb1\x15\xf3\x60\xbe\x40\xd0\x40\xd1\
        \x41\x20\x20\x24\xa6\x60\xbf\x24\xf3\
        \x41\x1f\xf0\x24\xf8\x41\x21\x10\xf0\x24\xf8\
        \x24\xf4\x41\x1f\xf0\x20\x20\x20\x40\x22\xff\
        \x41\x21\x10\xf0\x20\x20\x20\x4e\x22\xff\x24\xf5\
        \xb1\x10\x1e\x44\xf7\x71\x70\x25\xf2\xd1\x20\x20\x20\x0e\
        \xb1\x10\x1f\x44\xf7\x71\x70\x23\xf3\xd1\x20\x20\x20\x00\
        \x60\x2f\x2b\x05\xb2\x1a\xf3\xb2\xb2"),
];

fn main() {
    let mut args = std::env::args().skip(1);
    let budget: u64 = args.next().expect("a budget").parse().expect("a number");
    let only = args.next();
    for (name, code) in LOOPS {
        if only.as_deref().is_some_and(|o| o != name) { continue; }
        let mut memory = [0; 20];
        let mut machine = Machine::start(code, &mut memory, 20, 0, 0, 32).expect("a start");
        std::hint::black_box(&mut machine);
        let answer = match machine.run(code, &mut memory, budget) {
            Ok(Outcome::Ended(n)) => format!("ended {n}"),
            Ok(Outcome::Waiting(n)) => format!("waiting {n}"),
            Ok(Outcome::Spent(n)) => format!("spent {n}"),
            Ok(Outcome::Fault(n, Fault::Function(k))) => format!("fault {n} function {k}"),
            Ok(Outcome::Fault(n, Fault::Operation(k))) => format!("fault {n} operation {k}"),
            Ok(Outcome::Fault(n, Fault::Count(k))) => format!("fault {n} count {k}"),
            Ok(Outcome::Fault(n, Fault::Word(k))) => format!("fault {n} word {k}"),
            Ok(Outcome::Fault(n, Fault::Place(k))) => format!("fault {n} place {k}"),
            Err(refusal) => format!("{} {}", refusal.number, refusal.size),
        };
        let words: Vec<String> = memory.iter().map(|w| w.to_string()).collect();
        println!("{name} {answer} {}", words.join(" "));
    }
}
