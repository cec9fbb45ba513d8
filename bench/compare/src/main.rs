//! Compares the plotter with the rules written down a second time (`reader.rs`), on generated jobs.
//!
//! Usage: compare PLOTTER FOLDER COUNT [SEED]. Each job has a film of either kind, a pile over it, and
//! a list of plots, windows, blankings, readings and sheets of generated drawings, good and damaged.
//! What the program prints is compared line by line and every sheet byte by byte. The same seed gives
//! the same jobs. The first difference ends the run, and its files stay in the folder.

mod reader;

use reader::{covers, read, Slots};
use std::fmt::Write as _;
use std::fs;
use std::process::{Command, ExitCode};

struct Random(u64);

impl Random {
    fn next(&mut self) -> u64 {
        self.0 ^= self.0 << 13;
        self.0 ^= self.0 >> 7;
        self.0 ^= self.0 << 17;
        self.0
    }

    fn below(&mut self, n: u64) -> u64 {
        (self.next() >> 11) % n
    }

    fn chance(&mut self, percent: u64) -> bool {
        self.below(100) < percent
    }

    fn pick<'a, T>(&mut self, items: &'a [T]) -> &'a T {
        &items[self.below(items.len() as u64) as usize]
    }

    fn between(&mut self, low: i64, high: i64) -> i64 {
        low + self.below((high - low + 1) as u64) as i64
    }
}

#[derive(Clone, Copy, Debug)]
struct Frame {
    w: i64,
    h: i64,
    p: i64,
    ox: i64,
    oy: i64,
}

impl Frame {
    fn good(&self) -> bool {
        let centres = |o: i64, n: i64| o + self.p / 2 >= -30000 && o + self.p * (n - 1) + self.p / 2 <= 90000;
        self.p % 2 == 0
            && (2..=64).contains(&self.p)
            && self.w >= 1
            && self.h >= 1
            && self.w * self.p <= 60000
            && self.h * self.p <= 60000
            && centres(self.ox, self.w)
            && centres(self.oy, self.h)
    }

    fn holds(&self, v: (i64, i64, i64, i64)) -> bool {
        v.2 >= 1 && v.3 >= 1 && v.0 + v.2 <= self.w && v.1 + v.3 <= self.h
    }

    fn centre(&self, c: i64, r: i64) -> (i128, i128) {
        ((self.ox + self.p * c + self.p / 2) as i128, (self.oy + self.p * (self.h - 1 - r) + self.p / 2) as i128)
    }
}

/// A film by its pixels, with what is piled over it.
struct Film {
    below: Frame,
    dark: Vec<bool>,
    cut: Option<(i64, i64, i64, i64)>,
    mirror: bool,
    negative: bool,
}

impl Film {
    fn top(&self) -> Frame {
        match self.cut {
            Some((x, y, w, h)) => Frame {
                w,
                h,
                p: self.below.p,
                ox: self.below.ox + self.below.p * x,
                oy: self.below.oy + self.below.p * (self.below.h - y - h),
            },
            None => self.below,
        }
    }

    fn index(&self, c: i64, r: i64) -> usize {
        let top = self.top();
        let c = if self.mirror { top.w - 1 - c } else { c };
        let (x, y) = match self.cut {
            Some((x, y, _, _)) => (x, y),
            None => (0, 0),
        };
        ((y + r) * self.below.w + x + c) as usize
    }

    fn get(&self, c: i64, r: i64) -> bool {
        self.dark[self.index(c, r)] != self.negative
    }

    fn set(&mut self, c: i64, r: i64, dark: bool) {
        let i = self.index(c, r);
        self.dark[i] = dark != self.negative;
    }

    fn sheet(&self) -> Vec<u8> {
        let top = self.top();
        let mut out = format!("P4\n{} {}\n", top.w, top.h).into_bytes();
        for r in 0..top.h {
            for k in 0..(top.w + 7) / 8 {
                let mut byte = 0u8;
                for b in 0..8 {
                    let c = 8 * k + b;
                    byte = byte << 1 | (c < top.w && self.get(c, r)) as u8;
                }
                out.push(byte);
            }
        }
        out
    }
}

/// Writes drawings that lie about a film.
struct Artist<'a> {
    rng: &'a mut Random,
    unit: f64,
    decimals: u32,
    text: String,
    codes: Vec<(u32, bool)>,
    reach: (i64, i64, i64, i64),
    next_code: u32,
}

impl Artist<'_> {
    fn coordinate(&mut self, ticks: i64) -> String {
        let scale = 10f64.powi(self.decimals as i32) / self.unit;
        let v = (ticks as f64 * scale) as i64 + if self.rng.chance(30) { self.rng.between(-40, 40) } else { 0 };
        match self.rng.below(12) {
            0 => format!("{:+}", v),
            1 if v >= 0 => format!("0{v}"),
            _ => v.to_string(),
        }
    }

    fn point(&mut self) -> (i64, i64) {
        let (x0, x1, y0, y1) = self.reach;
        if self.rng.chance(2) {
            return (self.rng.between(-30001, 30001), self.rng.between(-30001, 30001));
        }
        (self.rng.between(x0, x1), self.rng.between(y0, y1))
    }

    fn size(&mut self, ticks: f64) -> String {
        let s = ticks / self.unit;
        match self.rng.below(6) {
            0 => format!("{s:.6}"),
            1 => format!("{s:.3}"),
            2 if s < 1.0 => format!("{s:.4}").trim_start_matches('0').to_string(),
            _ => format!("{s:.4}"),
        }
    }

    fn aperture(&mut self) {
        let k = self.next_code;
        self.next_code += 1;
        let span = (self.reach.1 - self.reach.0) as u64 / 2 + 4;
        let (a, b) = (self.rng.below(span) as f64, self.rng.below(span) as f64);
        let (a, b) = (self.size(a), self.size(b));
        let (text, round) = match self.rng.below(5) {
            0 => (format!("%ADD{k}R,{a}X{b}*%"), false),
            1 => (format!("%ADD{k}O,{a}X{b}*%"), false),
            _ => (format!("%ADD{k}C,{a}*%"), true),
        };
        self.line(&text);
        self.codes.push((k, round));
    }

    fn line(&mut self, text: &str) {
        self.text.push_str(text);
        match self.rng.below(10) {
            0 => self.text.push_str("\r\n"),
            1 => {}
            _ => self.text.push('\n'),
        }
    }

    fn select(&mut self, round: bool) {
        let wanted: Vec<u32> = self.codes.iter().filter(|c| c.1 || !round).map(|c| c.0).collect();
        if !wanted.is_empty() {
            let k = *self.rng.pick(&wanted);
            self.line(&format!("D{k}*"));
        }
    }

    fn flash(&mut self) {
        if self.rng.chance(60) {
            self.select(false);
        }
        let (x, y) = self.point();
        let (x, y) = (self.coordinate(x), self.coordinate(y));
        let text = match self.rng.below(8) {
            0 => format!("X{x}D03*"),
            1 => format!("Y{y}D03*"),
            _ => format!("X{x}Y{y}D03*"),
        };
        self.line(&text);
    }

    fn strokes(&mut self) {
        self.select(true);
        let (x, y) = self.point();
        let (x, y) = (self.coordinate(x), self.coordinate(y));
        self.line("G01*");
        self.line(&format!("X{x}Y{y}D02*"));
        for _ in 0..self.rng.between(1, 3) {
            let (x, y) = self.point();
            let (x, y) = (self.coordinate(x), self.coordinate(y));
            let text = match self.rng.below(6) {
                0 => format!("X{x}D01*"),
                1 => format!("Y{y}D01*"),
                2 => "D01*".to_string(),
                _ => format!("X{x}Y{y}D01*"),
            };
            self.line(&text);
        }
    }

    fn arc(&mut self) {
        self.select(true);
        self.line("G75*");
        let sense = if self.rng.chance(50) { "G02*" } else { "G03*" };
        self.line(sense);
        let (sx, sy) = self.point();
        let (i, j) = (self.rng.between(-300, 300), self.rng.between(-300, 300));
        let turn = self.rng.below(64) as f64 / 64.0 * std::f64::consts::TAU;
        let (cx, cy) = ((sx + i) as f64, (sy + j) as f64);
        let radius = ((i * i + j * j) as f64).sqrt();
        let (ex, ey) = match self.rng.below(8) {
            0 => (sx, sy),
            1 => self.point(),
            _ => ((cx + radius * turn.cos()).round() as i64, (cy + radius * turn.sin()).round() as i64),
        };
        let (sx, sy, ex, ey) = (self.coordinate(sx), self.coordinate(sy), self.coordinate(ex), self.coordinate(ey));
        let (i, j) = (self.coordinate(i), self.coordinate(j));
        self.line(&format!("X{sx}Y{sy}D02*"));
        self.line(&format!("X{ex}Y{ey}I{i}J{j}D01*"));
    }

    fn region(&mut self) {
        self.line("G01*");
        self.line("G36*");
        for _ in 0..self.rng.between(0, 2) {
            let (x, y) = self.point();
            let (x, y) = (self.coordinate(x), self.coordinate(y));
            self.line(&format!("X{x}Y{y}D02*"));
            for _ in 0..self.rng.between(0, 6) {
                let (u, v) = self.point();
                let (u, v) = (self.coordinate(u), self.coordinate(v));
                self.line(&format!("X{u}Y{v}D01*"));
            }
            if self.rng.chance(97) {
                self.line(&format!("X{x}Y{y}D01*"));
            }
        }
        self.line("G37*");
    }

    fn setting(&mut self) {
        let text = *self.rng.pick(&["%LPD*%", "%LPC*%", "%LMN*%", "%LMX*%", "%LMY*%", "%LMXY*%", "G04 a remark*", "%TO.N,1*%", "G75*"]);
        self.line(text);
    }

    fn objects(&mut self, most: i64) {
        for _ in 0..self.rng.between(0, most) {
            match self.rng.below(10) {
                0..=3 => self.flash(),
                4..=5 => self.strokes(),
                6 => self.arc(),
                7 => self.region(),
                _ => self.setting(),
            }
        }
    }

    fn block(&mut self) {
        let k = self.next_code;
        self.next_code += 1;
        self.line(&format!("%ABD{k}*%"));
        self.objects(4);
        self.line("%AB*%");
        self.codes.push((k, false));
    }

    fn repeat(&mut self) {
        let (i, j) = (self.rng.between(1, 4), self.rng.between(1, 4));
        let (x, y) = (self.rng.below(400) as f64, self.rng.below(400) as f64);
        let (x, y) = (self.size(x), self.size(y));
        self.line(&format!("%SRX{i}Y{j}I{x}J{y}*%"));
        self.objects(3);
        self.line("%SR*%");
    }

    fn drawing(mut self) -> Vec<u8> {
        let n = self.rng.between(4, 6);
        let m = self.decimals;
        let unit = if self.unit > 1000.0 { "%MOIN*%" } else { "%MOMM*%" };
        self.line(&format!("%FSLAX{n}{m}Y{n}{m}*%"));
        self.line(unit);
        for _ in 0..self.rng.between(1, 4) {
            self.aperture();
        }
        for _ in 0..self.rng.between(0, 5) {
            match self.rng.below(6) {
                0 | 1 => self.block(),
                2 => self.repeat(),
                _ => self.objects(6),
            }
        }
        if self.rng.chance(98) {
            self.line("M02*");
        }
        self.text.into_bytes()
    }
}

/// Damages a drawing in one place.
fn damage(rng: &mut Random, file: &mut Vec<u8>) {
    if file.is_empty() {
        return;
    }
    let at = rng.below(file.len() as u64) as usize;
    match rng.below(5) {
        0 => file.truncate(at),
        1 => {
            file.remove(at);
        }
        2 => file.insert(at, *rng.pick(b"*%XYD0123456789IJ-+.GM\n\r~ \x7f\x01")),
        3 => file[at] = *rng.pick(b"*%XYD0123456789IJ-+.GM\n\r~ \x80"),
        _ => {
            let end = (at + rng.below(30) as usize).min(file.len());
            let part = file[at..end].to_vec();
            let to = rng.below(file.len() as u64) as usize;
            for (n, b) in part.into_iter().enumerate() {
                file.insert(to + n, b);
            }
        }
    }
}

fn make_drawing(rng: &mut Random, frame: &Frame) -> Vec<u8> {
    let unit = if rng.chance(60) { 200.0 } else { 5080.0 };
    let decimals = rng.between(4, 6) as u32;
    let margin = 100;
    let reach = (frame.ox - margin, frame.ox + frame.w * frame.p + margin, frame.oy - margin, frame.oy + frame.h * frame.p + margin);
    let artist = Artist { rng, unit, decimals, text: String::new(), codes: vec![], reach, next_code: 10 };
    let mut file = artist.drawing();
    if rng.chance(25) {
        damage(rng, &mut file);
    }
    file
}

fn window(rng: &mut Random, top: &Frame) -> (i64, i64, i64, i64) {
    if rng.chance(8) {
        return (rng.between(0, top.w + 1), rng.between(0, top.h + 1), rng.between(0, top.w + 1), rng.between(0, top.h + 1));
    }
    let (x, y) = (rng.between(0, top.w - 1), rng.between(0, top.h - 1));
    (x, y, rng.between(1, top.w - x), rng.between(1, top.h - y))
}

struct Expected {
    lines: String,
    sheets: Vec<(String, Vec<u8>)>,
    accepted: usize,
    refused: usize,
}

fn plot(film: &mut Film, file: &[u8], v: (i64, i64, i64, i64), slots: Slots, expected: &mut Expected) -> String {
    let top = film.top();
    if !top.holds(v) {
        expected.refused += 1;
        return "refused 3 place 0 taken 0".to_string();
    }
    match read(file, slots) {
        Err(f) => {
            expected.refused += 1;
            format!("refused {} place {} taken {}", f.number, f.place, f.taken)
        }
        Ok(laid) => {
            expected.accepted += 1;
            assert_eq!(laid.laid, laid.objects.len() as u64);
            for o in &laid.objects {
                for r in v.1..v.1 + v.3 {
                    for c in v.0..v.0 + v.2 {
                        if covers(&o.shape, top.centre(c, r)) {
                            film.set(c, r, o.dark);
                        }
                    }
                }
            }
            format!("drawn {} laid {}", laid.drawn, laid.laid)
        }
    }
}

/// Writes one job with its drawings, and answers what the program must print and write.
fn make_job(rng: &mut Random) -> Expected {
    let mut expected = Expected { lines: String::new(), sheets: vec![], accepted: 0, refused: 0 };
    let mut job = String::new();
    let p = 2 * rng.between(1, 32);
    let mut frame = Frame { w: rng.between(1, 40), h: rng.between(1, 40), p, ox: rng.between(-2000, 2000), oy: rng.between(-2000, 2000) };
    if rng.chance(3) {
        frame.p += 1;
    }
    if rng.chance(3) {
        frame.ox = *rng.pick(&[-30000 - frame.p / 2, -30001 - frame.p / 2, 90000 - frame.p / 2 - frame.p * (frame.w - 1), 90001]);
    }
    let kind = *rng.pick(&["bitmap", "runs"]);
    writeln!(job, "film {kind} {} {} {} {} {}", frame.w, frame.h, frame.p, frame.ox, frame.oy).unwrap();
    let mut film = Film { below: frame, dark: vec![false; (frame.w * frame.h) as usize], cut: None, mirror: false, negative: false };
    let mut ended = !frame.good();
    if ended {
        writeln!(expected.lines, "film: refused 1 place 0 taken 0").unwrap();
    } else {
        writeln!(expected.lines, "film {} {}", frame.w, frame.h).unwrap();
    }
    if rng.chance(40) {
        let v = window(rng, &frame);
        writeln!(job, "cut {} {} {} {}", v.0, v.1, v.2, v.3).unwrap();
        if !ended {
            if frame.holds(v) {
                film.cut = Some(v);
                writeln!(expected.lines, "cut {} {}", v.2, v.3).unwrap();
            } else {
                ended = true;
                writeln!(expected.lines, "cut: refused 3 place 0 taken 0").unwrap();
            }
        }
    }
    for (name, percent) in [("mirror", 40), ("negative", 40)] {
        if rng.chance(percent) {
            writeln!(job, "{name}").unwrap();
            if name == "mirror" {
                film.mirror = true;
            } else {
                film.negative = true;
            }
            if !ended {
                writeln!(expected.lines, "{name}").unwrap();
            }
        }
    }
    let mut slots = Slots { apertures: 128, objects: 4096, pieces: 8192 };
    if rng.chance(20) {
        slots = Slots { apertures: rng.below(8) as usize, objects: rng.below(20) as usize, pieces: rng.below(20) as usize };
        writeln!(job, "slots {} {} {}", slots.apertures, slots.objects, slots.pieces).unwrap();
        if !ended {
            writeln!(expected.lines, "slots {} {} {}", slots.apertures, slots.objects, slots.pieces).unwrap();
        }
    }
    let top = if ended { frame } else { film.top() };
    let drawings = rng.between(1, 3);
    let mut files = vec![];
    for n in 0..drawings {
        let file = make_drawing(rng, &top);
        fs::write(format!("d{n}.gbr"), &file).unwrap();
        files.push(file);
    }
    for _ in 0..rng.between(1, 8) {
        let n = rng.below(drawings as u64) as usize;
        let line = match rng.below(10) {
            0..=3 => {
                writeln!(job, "plot d{n}.gbr").unwrap();
                if ended {
                    continue;
                }
                let v = (0, 0, top.w, top.h);
                format!("plot d{n}.gbr: {}", plot(&mut film, &files[n], v, slots, &mut expected))
            }
            4..=6 => {
                let v = window(rng, &top);
                writeln!(job, "window {} {} {} {} d{n}.gbr", v.0, v.1, v.2, v.3).unwrap();
                if ended {
                    continue;
                }
                format!("window d{n}.gbr: {}", plot(&mut film, &files[n], v, slots, &mut expected))
            }
            7 => {
                writeln!(job, "blank # all of it").unwrap();
                if ended {
                    continue;
                }
                for r in 0..top.h {
                    for c in 0..top.w {
                        film.set(c, r, false);
                    }
                }
                "blank".to_string()
            }
            _ => {
                let (c, r) = (rng.between(0, top.w), rng.between(0, top.h));
                writeln!(job, "read {c} {r}").unwrap();
                if ended {
                    continue;
                }
                if c < top.w && r < top.h {
                    format!("read {c} {r}: {}", if film.get(c, r) { "dark" } else { "clear" })
                } else {
                    format!("read {c} {r}: refused 4 place 0 taken 0")
                }
            }
        };
        writeln!(expected.lines, "{line}").unwrap();
        if rng.chance(30) {
            put_sheet(&mut job, &film, &mut expected);
        }
    }
    if ended {
        writeln!(job, "sheet none.pbm").unwrap();
    } else {
        put_sheet(&mut job, &film, &mut expected);
    }
    fs::write("job.txt", job).unwrap();
    expected
}

fn put_sheet(job: &mut String, film: &Film, expected: &mut Expected) {
    let name = format!("s{}.pbm", expected.sheets.len());
    writeln!(job, "sheet {name}").unwrap();
    let bytes = film.sheet();
    writeln!(expected.lines, "sheet {name}: {} bytes", bytes.len()).unwrap();
    expected.sheets.push((name, bytes));
}

fn main() -> ExitCode {
    let args: Vec<String> = std::env::args().collect();
    if args.len() < 4 {
        eprintln!("usage: compare PLOTTER FOLDER COUNT [SEED]");
        return ExitCode::FAILURE;
    }
    let plotter = fs::canonicalize(&args[1]).expect("the program");
    fs::create_dir_all(&args[2]).expect("the folder");
    std::env::set_current_dir(&args[2]).expect("the folder");
    let count: u64 = args[3].parse().expect("a count");
    let seed: u64 = args.get(4).map_or(1, |s| s.parse().expect("a seed"));
    let (mut accepted, mut refused, mut sheets) = (0, 0, 0);
    for n in 0..count {
        let mut rng = Random((seed * 1_000_003 + n).wrapping_mul(0x9E37_79B9_7F4A_7C15) | 1);
        for _ in 0..8 {
            rng.next();
        }
        let expected = make_job(&mut rng);
        let run = Command::new(&plotter).arg("--job=job.txt").output().expect("the program runs");
        let printed = String::from_utf8_lossy(&run.stdout);
        if !run.status.success() || printed != expected.lines {
            println!("job {n} differs: status {:?}\nexpected:\n{}printed:\n{}{}", run.status.code(), expected.lines, printed, String::from_utf8_lossy(&run.stderr));
            return ExitCode::FAILURE;
        }
        for (name, bytes) in &expected.sheets {
            if fs::read(name).expect("a sheet") != *bytes {
                println!("job {n}: {name} differs\n{}", expected.lines);
                fs::write(format!("expected-{name}"), bytes).unwrap();
                return ExitCode::FAILURE;
            }
            sheets += 1;
        }
        accepted += expected.accepted;
        refused += expected.refused;
    }
    println!("{count} jobs agree: {accepted} plots accepted, {refused} refused, {sheets} sheets equal byte by byte");
    ExitCode::SUCCESS
}
