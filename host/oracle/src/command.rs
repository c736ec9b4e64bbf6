//! The calls of the program `oracle`.
use std::{
    io::{Read, Write, stdin, stdout},
    panic::{AssertUnwindSafe, catch_unwind},
    process::exit,
    time::{Duration, Instant},
};

use oracle::{
    obj::{ObjInfo, ObjSection},
    records::Tables,
    stages::{
        Fault, STAGES, aligns, current_name, ends, link_table, listing, run, split_table, stage,
        walk_table,
    },
    util::{split::split_obj, toposort::toposort},
};

const USAGE: &str = "\
oracle [MODE] < RECORDS
  (none)                the listing of `splitlist`
  --stages              the split table after each stage, the link order, the walk in full
  --only STAGE [HEX]    one stage on the split table as given; STAGE is merge, common, gap,
                        check, trim, linker, order, walk, ends or aligns; HEX: common start
  --full                runs the uncut split_obj too and compares
  --bench N             nanoseconds per whole run, and peak memory
  --toposort            text on stdin: node count, then pairs FROM TO
Exit: 0 accepted, 1 error, 2 panic, 3 endless, 4 malformed records, 64 usage.";

/// A stack overflow (SIGSEGV on the guard page) or a run above the time limit
/// can't be caught as a panic: say so and leave. Linux only.
#[cfg(target_os = "linux")]
mod endless {
    use super::*;

    #[repr(C)]
    struct SigAction {
        handler: usize,
        mask: [u64; 16],
        flags: i32,
        restorer: usize,
    }

    unsafe extern "C" {
        fn sigaction(signal: i32, new: *const SigAction, old: *mut SigAction) -> i32;
        fn alarm(seconds: u32) -> u32;
        fn write(fd: i32, buf: *const u8, count: usize) -> isize;
        fn _exit(status: i32) -> !;
    }

    const SIGSEGV: i32 = 11;
    const SIGALRM: i32 = 14;
    const SA_ONSTACK: i32 = 0x0800_0000;

    extern "C" fn leave(_signal: i32) {
        let name = current_name();
        for part in ["endless ", name, "\n"] {
            unsafe { write(1, part.as_ptr(), part.len()) };
        }
        unsafe { _exit(3) }
    }

    pub fn install(seconds: u32) {
        let action = SigAction {
            handler: leave as extern "C" fn(i32) as usize,
            mask: [0; 16],
            flags: SA_ONSTACK,
            restorer: 0,
        };
        unsafe {
            sigaction(SIGSEGV, &action, std::ptr::null_mut());
            sigaction(SIGALRM, &action, std::ptr::null_mut());
            alarm(seconds);
        }
    }
}

#[cfg(not(target_os = "linux"))]
mod endless {
    pub fn install(_seconds: u32) {}
}

fn say(text: &str) {
    let mut out = stdout().lock();
    let _ = out.write_all(text.as_bytes());
    let _ = out.flush();
}

fn fault(f: Fault) -> i32 {
    say(&format!("{f}\n"));
    match f {
        Fault::Error(..) => 1,
        Fault::Panic(..) => 2,
    }
}

/// One line on standard error: what panicked and where.
fn set_hook() {
    std::panic::set_hook(Box::new(|info| {
        let message = info.payload_as_str().unwrap_or("?").replace('\n', " ");
        let place = info.location().map_or(String::new(), |l| {
            let parts: Vec<_> = l.file().rsplit('/').take(2).collect();
            let file: Vec<_> = parts.into_iter().rev().collect();
            format!(" @ {}:{}", file.join("/"), l.line())
        });
        eprintln!("panic {}: {message}{place}", current_name());
    }));
}

fn whole(tables: &Tables) -> i32 {
    let mut obj = tables.object();
    match run(tables, &mut obj) {
        Ok(walk) => {
            say(&listing(&walk));
            0
        }
        Err(f) => fault(f),
    }
}

fn show(s: usize, obj: &ObjInfo) -> String {
    if STAGES[s] == "order" { link_table(obj) } else { split_table(obj) }
}

fn all_stages(tables: &Tables) -> i32 {
    let mut obj = tables.object();
    for (s, name) in STAGES.iter().enumerate() {
        say(&format!("stage {name}\n"));
        match stage(s, tables, &mut obj, None) {
            Ok(Some(walk)) => say(&(walk_table(&obj, &walk) + &listing(&walk))),
            Ok(None) => say(&show(s, &obj)),
            Err(f) => return fault(f),
        }
    }
    0
}

fn only(tables: &Tables, name: &str, start: Option<u32>) -> i32 {
    let built = if name == "merge" { Ok(tables.object()) } else { tables.object_with_table() };
    let obj = match built {
        Ok(obj) => obj,
        Err(e) => {
            say(&format!("malformed {e}\n"));
            return 4;
        }
    };
    match name {
        "ends" => leaf(name, || ends(&obj).unwrap()),
        "aligns" => leaf(name, || aligns(&obj)),
        _ => only_stage(tables, obj, name, start),
    }
}

fn leaf(name: &str, ask: impl FnOnce() -> String) -> i32 {
    match catch_unwind(AssertUnwindSafe(ask)) {
        Ok(text) => {
            say(&text);
            0
        }
        Err(_) => {
            say(&format!("panic {name}\n"));
            2
        }
    }
}

fn only_stage(tables: &Tables, mut obj: ObjInfo, name: &str, start: Option<u32>) -> i32 {
    let Some(s) = STAGES.iter().position(|n| *n == name) else {
        eprintln!("{USAGE}");
        return 64;
    };
    match stage(s, tables, &mut obj, start) {
        Ok(Some(walk)) => say(&(walk_table(&obj, &walk) + &listing(&walk))),
        Ok(None) => say(&show(s, &obj)),
        Err(f) => return fault(f),
    }
    0
}

/// The cut section loop against the original function: same pieces, and the
/// same symbols ahead of the externs that the original adds.
fn full(tables: &Tables) -> i32 {
    let mut obj = tables.object();
    let walk = match run(tables, &mut obj) {
        Ok(walk) => walk,
        Err(f) => return fault(f),
    };
    let original = match catch_unwind(AssertUnwindSafe(|| split_obj(&obj, None, false))) {
        Ok(Ok(objects)) => objects,
        Ok(Err(e)) => {
            say(&format!("full error {e}\n"));
            return 1;
        }
        Err(_) => {
            say("full panic\n");
            return 2;
        }
    };
    let same = original.len() == walk.objects.len()
        && original.iter().zip(&walk.objects).all(|(a, b)| same_unit(a, b));
    say(if same { "full same\n" } else { "full differs\n" });
    if same { 0 } else { 1 }
}

fn same_unit(original: &ObjInfo, cut: &ObjInfo) -> bool {
    let (a, b) = (original, cut);
    a.name == b.name
        && a.sections.len() == b.sections.len()
        && a.sections.iter().zip(b.sections.iter()).all(|((_, x), (_, y))| same_piece(x, y))
        && b.symbols.iter().zip(a.symbols.iter()).all(|((_, y), (_, x))| x == y)
        && a.symbols.count() >= b.symbols.count()
}

fn same_piece(a: &ObjSection, b: &ObjSection) -> bool {
    let relocations = |s: &ObjSection| -> Vec<_> {
        s.relocations.iter().map(|(offset, r)| (offset, r.kind, r.addend)).collect()
    };
    (&a.name, a.virtual_address, a.size, a.align, &a.data)
        == (&b.name, b.virtual_address, b.size, b.align, &b.data)
        && relocations(a) == relocations(b)
}

fn bench(tables: &Tables, count: u32) -> i32 {
    let (mut total, mut build, mut least) = (Duration::ZERO, Duration::ZERO, Duration::MAX);
    let mut last = String::new();
    for i in 0..count {
        let begin = Instant::now();
        let mut obj = tables.object();
        let built = begin.elapsed();
        let result = run(tables, &mut obj);
        let took = begin.elapsed();
        total += took;
        build += built;
        least = least.min(took);
        if i + 1 == count {
            last = match result {
                Ok(walk) => listing(&walk).lines().last().unwrap_or("").to_string(),
                Err(f) => f.to_string(),
            };
        }
    }
    let n = count.max(1);
    say(&format!(
        "bench runs {count} mean_ns {} least_ns {} of_which_building_mean_ns {}\nlast {last}\n",
        (total / n).as_nanos(),
        least.as_nanos(),
        (build / n).as_nanos()
    ));
    say_peak_memory();
    0
}

fn say_peak_memory() {
    let status = std::fs::read_to_string("/proc/self/status").unwrap_or_default();
    if let Some(line) = status.lines().find(|l| l.starts_with("VmHWM:")) {
        say(&format!("{}\n", line.split_whitespace().collect::<Vec<_>>().join(" ")));
    }
}

fn topo(text: &str) -> i32 {
    let numbers: Option<Vec<usize>> = text.split_whitespace().map(|w| w.parse().ok()).collect();
    let Some((&n, edges)) = numbers.as_deref().and_then(|v| v.split_first()) else {
        eprintln!("{USAGE}");
        return 64;
    };
    let mut graph = vec![vec![]; n];
    for edge in edges.chunks(2) {
        match (edge, edge.first().and_then(|&a| graph.get_mut(a))) {
            (&[_, b], Some(list)) => list.push(b),
            _ => {
                say("malformed edge\n");
                return 4;
            }
        }
    }
    match catch_unwind(|| toposort(&graph)) {
        Ok(Ok(order)) => say_nodes("order", order, 0),
        Ok(Err(cycle)) => say_nodes("cycle", cycle, 1),
        Err(_) => say_nodes("panic toposort", vec![], 2),
    }
}

fn say_nodes(head: &str, nodes: Vec<usize>, status: i32) -> i32 {
    let tail: String = nodes.iter().map(|n| format!(" {n}")).collect();
    say(&format!("{head}{tail}\n"));
    status
}

fn work(args: Vec<String>) -> i32 {
    let args: Vec<&str> = args.iter().map(String::as_str).collect();
    let mut input = vec![];
    if stdin().read_to_end(&mut input).is_err() {
        return 4;
    }
    if args == ["--toposort"] {
        return topo(&String::from_utf8_lossy(&input));
    }
    let tables = match Tables::parse(&input) {
        Ok(tables) => tables,
        Err(e) => {
            say(&format!("malformed {e}\n"));
            return 4;
        }
    };
    match args.as_slice() {
        [] => whole(&tables),
        ["--stages"] => all_stages(&tables),
        ["--full"] => full(&tables),
        ["--only", name] => only(&tables, name, None),
        ["--only", "common", start] if u32::from_str_radix(start, 16).is_ok() => {
            only(&tables, "common", u32::from_str_radix(start, 16).ok())
        }
        ["--bench", n] if n.parse::<u32>().is_ok() => bench(&tables, n.parse().unwrap()),
        _ => {
            eprintln!("{USAGE}");
            64
        }
    }
}

pub fn main() {
    set_hook();
    let args: Vec<String> = std::env::args().skip(1).collect();
    if args.iter().any(|a| a == "--help" || a == "-h") {
        println!("{USAGE}");
        exit(0);
    }
    let limit = std::env::var("ORACLE_SECONDS").ok().and_then(|s| s.parse().ok());
    let bench = args.first().is_some_and(|a| a == "--bench");
    endless::install(limit.unwrap_or(if bench { 0 } else { 10 }));
    let thread = std::thread::Builder::new().stack_size(16 << 20).spawn(|| work(args)).unwrap();
    exit(thread.join().unwrap_or(2));
}
