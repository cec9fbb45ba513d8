//! The rules of a file, written down once more, slowly and plainly: bytes to laid objects.

/// A refusal: its number, its place and the commands taken before it.
#[derive(Clone, Copy, Debug, PartialEq, Eq)]
pub struct Fault {
    pub number: u32,
    pub place: usize,
    pub taken: usize,
}

pub type P = (i128, i128);

#[derive(Clone, Debug)]
pub enum Shape {
    Circle(P, i128),
    Rect(P, i128, i128),
    Obround(P, i128, i128),
    Stroke(P, P, i128),
    Arc { s: P, e: P, c: P, clockwise: bool, r: i128 },
    Contour(Vec<P>),
    Block { number: usize, at: P, mx: bool, my: bool },
}

#[derive(Clone, Debug)]
pub struct Object {
    pub dark: bool,
    pub shape: Shape,
}

#[derive(Clone, Debug)]
enum Figure {
    Circle(i128),
    Rect(i128, i128),
    Obround(i128, i128),
    Block(Vec<Object>),
}

#[derive(Clone, Debug)]
enum Item {
    One(Object),
    Repeat { objects: Vec<Object>, i: i128, j: i128, dx: i128, dy: i128 },
}

/// What an accepted file comes to.
#[derive(Debug)]
pub struct Laid {
    pub drawn: usize,
    pub laid: u64,
    pub objects: Vec<Object>,
}

#[derive(Clone, Copy)]
pub struct Slots {
    pub apertures: usize,
    pub objects: usize,
    pub pieces: usize,
}

struct Word<'a> {
    extended: bool,
    place: usize,
    text: &'a [u8],
    next: usize,
}

fn is_content(b: u8) -> bool {
    (32..=126).contains(&b) && b != b'*' && b != b'%'
}

fn next_word(file: &[u8], mut at: usize, taken: usize) -> Result<Word<'_>, Fault> {
    let end = Fault { number: 11, place: file.len(), taken };
    while at < file.len() && (file[at] == b'\r' || file[at] == b'\n') {
        at += 1;
    }
    if at >= file.len() {
        return Err(end);
    }
    let extended = file[at] == b'%';
    if extended {
        at += 1;
    }
    let place = at;
    while at < file.len() && is_content(file[at]) {
        at += 1;
    }
    if at >= file.len() {
        return Err(end);
    }
    if file[at] != b'*' || at == place {
        return Err(Fault { number: 10, place: at, taken });
    }
    let text = &file[place..at];
    at += 1;
    if extended {
        if at >= file.len() {
            return Err(end);
        }
        if file[at] != b'%' {
            return Err(Fault { number: 10, place: at, taken });
        }
        at += 1;
    }
    Ok(Word { extended, place, text, next: at })
}

#[derive(Clone, Debug)]
enum Command {
    Format(u32, u32),
    Unit(bool),
    Aperture(u32, char, Vec<u128>),
    BlockOpen(u32),
    BlockClose,
    RepeatOpen(u32, u32, u128, u128),
    RepeatClose,
    Polarity(bool),
    Mirror(bool, bool),
    Attribute,
    Comment,
    Mode(u8),
    G75,
    RegionOpen,
    RegionClose,
    End,
    Select(u32),
    Operation { d: u8, x: Option<i128>, y: Option<i128>, i: Option<i128>, j: Option<i128> },
}

fn code(text: &str) -> Option<u32> {
    let n = text.len();
    if !(2..=3).contains(&n) || !text.bytes().all(|b| b.is_ascii_digit()) || text.starts_with('0') {
        return None;
    }
    text.parse().ok()
}

/// A size in millionths.
fn size(text: &str) -> Option<u128> {
    let (whole, part) = match text.split_once('.') {
        Some((w, p)) => (w, p),
        None => (text, ""),
    };
    if whole.len() > 4 || part.len() > 6 || whole.len() + part.len() == 0 {
        return None;
    }
    if !whole.bytes().chain(part.bytes()).all(|b| b.is_ascii_digit()) {
        return None;
    }
    let mut padded = part.to_string();
    while padded.len() < 6 {
        padded.push('0');
    }
    let w: u128 = if whole.is_empty() { 0 } else { whole.parse().ok()? };
    Some(w * 1_000_000 + padded.parse::<u128>().ok()?)
}

fn count(text: &str) -> Option<u32> {
    if text.is_empty() || text.len() > 3 || !text.bytes().all(|b| b.is_ascii_digit()) {
        return None;
    }
    text.parse().ok()
}

fn extended(text: &str) -> Option<Command> {
    if let Some(rest) = text.strip_prefix("FSLAX") {
        let b = rest.as_bytes();
        if b.len() == 5 && b[2] == b'Y' && b[0] == b[3] && b[1] == b[4] && (b'1'..=b'6').contains(&b[0]) && (b'4'..=b'6').contains(&b[1]) {
            return Some(Command::Format((b[0] - b'0') as u32, (b[1] - b'0') as u32));
        }
        return None;
    }
    match text {
        "MOMM" => return Some(Command::Unit(false)),
        "MOIN" => return Some(Command::Unit(true)),
        "AB" => return Some(Command::BlockClose),
        "SR" => return Some(Command::RepeatClose),
        "LPD" => return Some(Command::Polarity(true)),
        "LPC" => return Some(Command::Polarity(false)),
        "LMN" => return Some(Command::Mirror(false, false)),
        "LMX" => return Some(Command::Mirror(true, false)),
        "LMY" => return Some(Command::Mirror(false, true)),
        "LMXY" => return Some(Command::Mirror(true, true)),
        _ => {}
    }
    if let Some(rest) = text.strip_prefix("ADD") {
        let digits = rest.bytes().take_while(|b| b.is_ascii_digit()).count();
        let k = code(&rest[..digits])?;
        let rest = &rest[digits..];
        if let Some(s) = rest.strip_prefix("C,") {
            return Some(Command::Aperture(k, 'C', vec![size(s)?]));
        }
        for (head, letter) in [("R,", 'R'), ("O,", 'O')] {
            if let Some(s) = rest.strip_prefix(head) {
                let (a, b) = s.split_once('X')?;
                return Some(Command::Aperture(k, letter, vec![size(a)?, size(b)?]));
            }
        }
        return None;
    }
    if let Some(rest) = text.strip_prefix("ABD") {
        return Some(Command::BlockOpen(code(rest)?));
    }
    if let Some(rest) = text.strip_prefix("SRX") {
        let (i, rest) = rest.split_once('Y')?;
        let (j, rest) = rest.split_once('I')?;
        let (x, y) = rest.split_once('J')?;
        return Some(Command::RepeatOpen(count(i)?, count(j)?, size(x)?, size(y)?));
    }
    if ["TF", "TA", "TO", "TD"].iter().any(|h| text.starts_with(h)) {
        return Some(Command::Attribute);
    }
    None
}

fn value(text: &str, longest: usize) -> Option<i128> {
    let (sign, digits) = match text.as_bytes().first()? {
        b'+' => (1, &text[1..]),
        b'-' => (-1, &text[1..]),
        _ => (1, text),
    };
    if digits.is_empty() || digits.len() > longest || !digits.bytes().all(|b| b.is_ascii_digit()) {
        return None;
    }
    Some(sign * digits.parse::<i128>().ok()?)
}

fn plain(text: &str, longest: usize) -> Option<Command> {
    if text.starts_with("G04") {
        return Some(Command::Comment);
    }
    match text {
        "G01" => return Some(Command::Mode(1)),
        "G02" => return Some(Command::Mode(2)),
        "G03" => return Some(Command::Mode(3)),
        "G75" => return Some(Command::G75),
        "G36" => return Some(Command::RegionOpen),
        "G37" => return Some(Command::RegionClose),
        "M02" => return Some(Command::End),
        _ => {}
    }
    if let Some(rest) = text.strip_prefix('D') {
        if let Some(k) = code(rest) {
            return Some(Command::Select(k));
        }
    }
    let d = text.len().checked_sub(3)?;
    let op = match &text[d..] {
        "D01" => 1,
        "D02" => 2,
        "D03" => 3,
        _ => return None,
    };
    let mut rest = &text[..d];
    let mut found = [None; 4];
    for (n, letter) in ['X', 'Y', 'I', 'J'].iter().enumerate() {
        if let Some(after) = rest.strip_prefix(*letter) {
            let end = after.find(|c: char| c.is_ascii_uppercase()).unwrap_or(after.len());
            found[n] = Some(value(&after[..end], longest)?);
            rest = &after[end..];
        }
    }
    if !rest.is_empty() || (op != 1 && (found[2].is_some() || found[3].is_some())) {
        return None;
    }
    Some(Command::Operation { d: op, x: found[0], y: found[1], i: found[2], j: found[3] })
}

/// n / d to the nearest whole number, ties away from zero.
fn nearest(n: i128, d: i128) -> i128 {
    let m = (2 * n.abs() + d) / (2 * d);
    if n < 0 {
        -m
    } else {
        m
    }
}

fn cross(u: P, w: P) -> i128 {
    u.0 * w.1 - u.1 * w.0
}

fn dot(u: P, w: P) -> i128 {
    u.0 * w.0 + u.1 * w.1
}

fn sub(a: P, b: P) -> P {
    (a.0 - b.0, a.1 - b.1)
}

enum Open {
    Nothing,
    Block(usize, Vec<Object>),
    Repeat { objects: Vec<Object>, i: i128, j: i128, dx: i128, dy: i128 },
}

struct State {
    format: Option<(u32, u32)>,
    unit: Option<bool>,
    dark: bool,
    mirror: (bool, bool),
    aperture: Option<usize>,
    mode: Option<u8>,
    g75: bool,
    point: Option<P>,
    open: Open,
    region: bool,
    contour: Option<(P, Vec<P>)>,
    apertures: Vec<(u32, Figure)>,
    items: Vec<Item>,
    drawn: usize,
    pieces: usize,
    laid: u64,
    slots: Slots,
}

fn depth(aps: &[(u32, Figure)], n: usize) -> u32 {
    match &aps[n].1 {
        Figure::Block(objects) => {
            1 + objects
                .iter()
                .map(|o| if let Shape::Block { number, .. } = o.shape { depth(aps, number) } else { 0 })
                .max()
                .unwrap_or(0)
        }
        _ => 0,
    }
}

fn lays(aps: &[(u32, Figure)], shape: &Shape) -> u64 {
    match shape {
        Shape::Block { number, .. } => match &aps[*number].1 {
            Figure::Block(objects) => objects.iter().map(|o| lays(aps, &o.shape)).sum(),
            _ => 0,
        },
        _ => 1,
    }
}

impl State {
    fn in_block(&self) -> bool {
        matches!(self.open, Open::Block(..))
    }

    fn nothing_open(&self) -> bool {
        matches!(self.open, Open::Nothing)
    }

    fn k(&self) -> i128 {
        if self.unit == Some(true) {
            5080
        } else {
            200
        }
    }

    fn ticks(&self, v: i128) -> i128 {
        nearest(v * self.k(), 10i128.pow(self.format.unwrap().1))
    }

    fn half(&self, s: u128) -> i128 {
        nearest(s as i128 * self.k(), 2_000_000)
    }

    fn step(&self, s: u128) -> i128 {
        nearest(s as i128 * self.k(), 1_000_000)
    }

    fn number_of(&self, k: u32) -> Option<usize> {
        self.apertures.iter().position(|a| a.0 == k)
    }

    fn add_aperture(&mut self, k: u32, f: Figure) -> Result<(), u32> {
        if self.apertures.len() >= self.slots.apertures.min(128) {
            return Err(29);
        }
        self.apertures.push((k, f));
        Ok(())
    }

    fn add_object(&mut self, shape: Shape) -> Result<(), u32> {
        if self.drawn >= self.slots.objects.min(4096) {
            return Err(29);
        }
        let weight = lays(&self.apertures, &shape);
        let times = match &self.open {
            Open::Nothing => 1,
            Open::Block(..) => 0,
            Open::Repeat { i, j, .. } => (*i * *j) as u64,
        };
        if let Shape::Block { number, .. } = shape {
            if self.in_block() && depth(&self.apertures, number) >= 8 {
                return Err(30);
            }
        }
        if self.laid + times * weight > 1_000_000 {
            return Err(30);
        }
        self.laid += times * weight;
        self.drawn += 1;
        let object = Object { dark: self.dark, shape };
        match &mut self.open {
            Open::Nothing => self.items.push(Item::One(object)),
            Open::Block(_, objects) => objects.push(object),
            Open::Repeat { objects, .. } => objects.push(object),
        }
        if let Open::Block(n, objects) = &self.open {
            let (n, objects) = (*n, objects.clone());
            self.apertures[n].1 = Figure::Block(objects);
        }
        Ok(())
    }

    /// 21: may the command stand here?
    fn may_stand(&self, c: &Command) -> bool {
        let ready = self.format.is_some() && self.unit.is_some();
        match c {
            Command::Comment => return true,
            Command::Attribute => return !self.region,
            Command::Format(..) => return self.format.is_none(),
            Command::Unit(_) => return self.unit.is_none(),
            _ => {}
        }
        if !ready {
            return false;
        }
        if self.region {
            match c {
                Command::Operation { d: 2, .. } | Command::Mode(1) | Command::RegionClose => {}
                Command::Operation { d: 1, .. } if self.mode == Some(1) => {}
                _ => return false,
            }
        }
        match c {
            Command::BlockOpen(_) | Command::RepeatOpen(..) | Command::End => self.nothing_open(),
            Command::BlockClose => self.in_block(),
            Command::RepeatClose => matches!(self.open, Open::Repeat { .. }),
            Command::RegionClose => self.region,
            Command::Operation { d: 1, i, j, .. } => !(self.mode == Some(1) && (i.is_some() || j.is_some())),
            _ => true,
        }
    }

    fn ranged(&self, v: Option<i128>, most: i128) -> Result<Option<i128>, u32> {
        match v {
            None => Ok(None),
            Some(v) => {
                let t = self.ticks(v);
                if t.abs() > most {
                    Err(22)
                } else {
                    Ok(Some(t))
                }
            }
        }
    }

    fn end_contour(&mut self) -> Result<(), u32> {
        let Some((start, points)) = self.contour.clone() else {
            return Ok(());
        };
        if points.is_empty() {
            return Ok(());
        }
        if *points.last().unwrap() != start {
            return Err(28);
        }
        let mut all = vec![start];
        all.extend(points);
        self.add_object(Shape::Contour(all))
    }

    fn obey(&mut self, c: &Command) -> Result<(), u32> {
        if !self.may_stand(c) {
            return Err(21);
        }
        match c {
            Command::Format(n, m) => self.format = Some((*n, *m)),
            Command::Unit(inch) => self.unit = Some(*inch),
            Command::Aperture(k, letter, sizes) => {
                let halves: Vec<i128> = sizes.iter().map(|s| self.half(*s)).collect();
                if halves.iter().any(|h| *h > 5000 || (*letter != 'C' && *h == 0)) {
                    return Err(22);
                }
                if self.number_of(*k).is_some() {
                    return Err(23);
                }
                let f = match letter {
                    'C' => Figure::Circle(halves[0]),
                    'R' => Figure::Rect(halves[0], halves[1]),
                    _ => Figure::Obround(halves[0], halves[1]),
                };
                self.add_aperture(*k, f)?;
            }
            Command::BlockOpen(k) => {
                if self.number_of(*k).is_some() {
                    return Err(23);
                }
                self.add_aperture(*k, Figure::Block(vec![]))?;
                self.open = Open::Block(self.apertures.len() - 1, vec![]);
                self.point = None;
            }
            Command::BlockClose => {
                self.open = Open::Nothing;
                self.point = None;
            }
            Command::RepeatOpen(i, j, x, y) => {
                let (i, j) = (*i as i128, *j as i128);
                let (dx, dy) = (self.step(*x), self.step(*y));
                if !(1..=100).contains(&i) || !(1..=100).contains(&j) || (i - 1) * dx > 60000 || (j - 1) * dy > 60000 {
                    return Err(22);
                }
                self.open = Open::Repeat { objects: vec![], i, j, dx, dy };
                self.point = None;
            }
            Command::RepeatClose => {
                let open = std::mem::replace(&mut self.open, Open::Nothing);
                if let Open::Repeat { objects, i, j, dx, dy } = open {
                    self.items.push(Item::Repeat { objects, i, j, dx, dy });
                }
                self.point = None;
            }
            Command::Polarity(dark) => self.dark = *dark,
            Command::Mirror(x, y) => self.mirror = (*x, *y),
            Command::Attribute | Command::Comment | Command::End => {}
            Command::Mode(m) => self.mode = Some(*m),
            Command::G75 => self.g75 = true,
            Command::RegionOpen => {
                self.region = true;
                self.contour = None;
            }
            Command::RegionClose => {
                self.end_contour()?;
                self.region = false;
                self.contour = None;
                self.point = None;
            }
            Command::Select(k) => {
                let n = self.number_of(*k).ok_or(23u32)?;
                if let Open::Block(open, _) = self.open {
                    if open == n {
                        return Err(23);
                    }
                }
                self.aperture = Some(n);
            }
            Command::Operation { d, x, y, i, j } => self.operate(*d, *x, *y, *i, *j)?,
        }
        Ok(())
    }

    fn operate(&mut self, d: u8, x: Option<i128>, y: Option<i128>, i: Option<i128>, j: Option<i128>) -> Result<(), u32> {
        let x = self.ranged(x, 30000)?;
        let y = self.ranged(y, 30000)?;
        let i = self.ranged(i, 15000)?;
        let j = self.ranged(j, 15000)?;
        if self.point.is_none() && (d == 1 || x.is_none() || y.is_none()) {
            return Err(24);
        }
        let from = self.point;
        let to = (x.unwrap_or_else(|| from.unwrap().0), y.unwrap_or_else(|| from.unwrap().1));
        match d {
            2 => {
                if self.region {
                    self.end_contour()?;
                    self.contour = Some((to, vec![]));
                }
            }
            3 => {
                let n = self.aperture.ok_or(24u32)?;
                let shape = match &self.apertures[n].1 {
                    Figure::Circle(r) => Shape::Circle(to, *r),
                    Figure::Rect(a, b) => Shape::Rect(to, *a, *b),
                    Figure::Obround(a, b) => Shape::Obround(to, *a, *b),
                    Figure::Block(_) => Shape::Block { number: n, at: to, mx: self.mirror.0, my: self.mirror.1 },
                };
                self.add_object(shape)?;
            }
            _ if self.region => {
                if self.contour.is_none() {
                    return Err(28);
                }
                if self.pieces >= self.slots.pieces.min(8192) {
                    return Err(29);
                }
                self.pieces += 1;
                self.contour.as_mut().unwrap().1.push(to);
            }
            _ => self.stroke(from.unwrap(), to, i.unwrap_or(0), j.unwrap_or(0))?,
        }
        self.point = Some(to);
        Ok(())
    }

    fn stroke(&mut self, s: P, e: P, i: i128, j: i128) -> Result<(), u32> {
        let n = self.aperture.ok_or(24u32)?;
        let mode = self.mode.ok_or(24u32)?;
        if mode != 1 && !self.g75 {
            return Err(24);
        }
        let Figure::Circle(r) = self.apertures[n].1 else {
            return Err(25);
        };
        if mode == 1 {
            if (e.0 - s.0).abs() > 30000 || (e.1 - s.1).abs() > 30000 {
                return Err(27);
            }
            return self.add_object(Shape::Stroke(s, e, r));
        }
        let c = (s.0 + i, s.1 + j);
        let (u, v) = (sub(s, c), sub(e, c));
        if u == (0, 0) || (dot(u, u) - dot(v, v)).abs() > 8 * (u.0.abs() + u.1.abs() + 1) || (s != e && cross(u, v) == 0 && dot(u, v) > 0) {
            return Err(26);
        }
        self.add_object(Shape::Arc { s, e, c, clockwise: mode == 2, r })
    }
}

/// Mirrored, then moved.
fn put(p: P, mx: bool, my: bool, by: P) -> P {
    (if mx { -p.0 } else { p.0 } + by.0, if my { -p.1 } else { p.1 } + by.1)
}

fn placed(o: &Object, mx: bool, my: bool, by: P, turn: bool) -> Object {
    let at = |p: P| put(p, mx, my, by);
    let shape = match &o.shape {
        Shape::Circle(p, r) => Shape::Circle(at(*p), *r),
        Shape::Rect(p, a, b) => Shape::Rect(at(*p), *a, *b),
        Shape::Obround(p, a, b) => Shape::Obround(at(*p), *a, *b),
        Shape::Stroke(s, e, r) => Shape::Stroke(at(*s), at(*e), *r),
        Shape::Arc { s, e, c, clockwise, r } => Shape::Arc { s: at(*s), e: at(*e), c: at(*c), clockwise: *clockwise != (mx != my), r: *r },
        Shape::Contour(points) => Shape::Contour(points.iter().map(|p| at(*p)).collect()),
        Shape::Block { .. } => unreachable!(),
    };
    Object { dark: o.dark != turn, shape }
}

/// A block laid flat: every object of it as the block's own coordinates have it.
fn flat(aps: &[(u32, Figure)], o: &Object) -> Vec<Object> {
    let Shape::Block { number, at, mx, my } = o.shape else {
        return vec![o.clone()];
    };
    let Figure::Block(objects) = &aps[number].1 else {
        return vec![];
    };
    let mut out = vec![];
    for inner in objects {
        for each in flat(aps, inner) {
            out.push(placed(&each, mx, my, at, !o.dark));
        }
    }
    out
}

/// Reads a file by the rules.
pub fn read(file: &[u8], slots: Slots) -> Result<Laid, Fault> {
    if file.len() > 1_048_576 {
        return Err(Fault { number: 7, place: 0, taken: 0 });
    }
    let mut state = State {
        format: None,
        unit: None,
        dark: true,
        mirror: (false, false),
        aperture: None,
        mode: None,
        g75: false,
        point: None,
        open: Open::Nothing,
        region: false,
        contour: None,
        apertures: vec![],
        items: vec![],
        drawn: 0,
        pieces: 0,
        laid: 0,
        slots,
    };
    let mut at = 0;
    let mut taken = 0;
    loop {
        let word = next_word(file, at, taken)?;
        let text = std::str::from_utf8(word.text).unwrap();
        let longest = match state.format {
            Some((n, m)) => (n + m) as usize,
            None => 12,
        };
        let command = if word.extended { extended(text) } else { plain(text, longest) };
        let Some(command) = command else {
            return Err(Fault { number: 20, place: word.place, taken });
        };
        if let Err(number) = state.obey(&command) {
            return Err(Fault { number, place: word.place, taken });
        }
        taken += 1;
        at = word.next;
        if matches!(command, Command::End) {
            break;
        }
    }
    while at < file.len() {
        if file[at] != b'\r' && file[at] != b'\n' {
            return Err(Fault { number: 10, place: at, taken });
        }
        at += 1;
    }
    let mut objects = vec![];
    for item in &state.items {
        match item {
            Item::One(o) => objects.extend(flat(&state.apertures, o)),
            Item::Repeat { objects: group, i, j, dx, dy } => {
                for a in 0..*i {
                    for b in 0..*j {
                        for o in group {
                            for each in flat(&state.apertures, o) {
                                objects.push(placed(&each, false, false, (a * dx, b * dy), false));
                            }
                        }
                    }
                }
            }
        }
    }
    Ok(Laid { drawn: state.drawn, laid: state.laid, objects })
}

fn in_circle(q: P, r: i128, p: P) -> bool {
    let w = sub(p, q);
    r > 0 && dot(w, w) <= r * r
}

fn near(w: P, r: i128) -> bool {
    dot(w, w) <= r * r
}

fn sector(u: P, v: P, t: P, same: bool) -> bool {
    if same {
        true
    } else if cross(u, v) >= 0 {
        cross(u, t) >= 0 && cross(t, v) >= 0
    } else {
        !(cross(v, t) > 0 && cross(t, u) > 0)
    }
}

/// Whether a laid object covers the point.
pub fn covers(shape: &Shape, p: P) -> bool {
    match shape {
        Shape::Circle(q, r) => in_circle(*q, *r, p),
        Shape::Rect(q, a, b) => {
            let w = sub(p, *q);
            w.0.abs() <= *a && w.1.abs() <= *b
        }
        Shape::Obround(q, a, b) => {
            let w = sub(p, *q);
            let (w, a, b) = if a >= b { (w, *a, *b) } else { ((w.1, w.0), *b, *a) };
            (w.0.abs() <= a - b && w.1.abs() <= b) || near((w.0 - (a - b), w.1), b) || near((w.0 + (a - b), w.1), b)
        }
        Shape::Stroke(s, e, r) => {
            if in_circle(*s, *r, p) || in_circle(*e, *r, p) {
                return true;
            }
            let d = sub(*e, *s);
            let n = dot(d, d);
            let w = sub(p, *s);
            *r > 0 && s != e && dot(d, w) >= 0 && dot(d, w) <= n && cross(d, w) * cross(d, w) <= r * r * n
        }
        Shape::Arc { s, e, c, clockwise, r } => {
            if in_circle(*s, *r, p) || in_circle(*e, *r, p) {
                return true;
            }
            let (u, v, t) = (sub(*s, *c), sub(*e, *c), sub(p, *c));
            let n = dot(u, u);
            let k = dot(t, t) - n - r * r;
            let close = k * k <= 4 * r * r * n;
            let outer = k <= 0 || close;
            let inner = r * r >= n || k >= 0 || close;
            let inside = if *clockwise { sector(v, u, t, s == e) } else { sector(u, v, t, s == e) };
            *r > 0 && outer && inner && inside
        }
        Shape::Contour(points) => {
            let mut odd = false;
            for pair in points.windows(2) {
                let (s, e) = (pair[0], pair[1]);
                let (low_s, low_e) = (s.1 <= p.1, e.1 <= p.1);
                if low_s != low_e {
                    let (lo, hi) = if low_s { (s, e) } else { (e, s) };
                    if cross(sub(hi, lo), sub(p, lo)) > 0 {
                        odd = !odd;
                    }
                }
            }
            odd
        }
        Shape::Block { .. } => unreachable!(),
    }
}
