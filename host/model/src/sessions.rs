//! Random sessions of the text program.
//!
//! Lines that the store would refuse are often thrown again, so that sessions
//! build something; those that are kept bring every report into play.

use crate::random::Random;
use crate::text::Program;

/// A session: its lines and what the program prints for each.
pub struct Session {
    pub seed: u64,
    pub lines: Vec<Served>,
}

/// A line and its answer, both without newline.
pub struct Served {
    pub line: String,
    pub answer: String,
}

impl Session {
    /// The session of `count` lines that a seed gives.
    pub fn new(seed: u64, count: usize) -> Session {
        let mut maker = Maker {
            random: Random::new(seed),
            program: Program::new(),
            made: Vec::new(),
        };
        let lines = (0..count).map(|_| maker.next()).collect();
        Session { seed, lines }
    }
}

/// How often a line is thrown at most.
const THROWS: usize = 10;

struct Maker {
    random: Random,
    program: Program,
    /// Names that a call made; some are gone again.
    made: Vec<&'static str>,
}

impl Maker {
    fn next(&mut self) -> Served {
        let mut throws = 0;
        loop {
            let (line, name) = self.line();
            let mut tried = self.program.clone();
            let answer = serve(&mut tried, &line);
            throws += 1;
            if throws == THROWS || self.random.chance(worth(&answer)) {
                self.program = tried;
                if answer.starts_with('0') {
                    self.made.extend(name);
                }
                return Served { line, answer };
            }
        }
    }

    /// One line of any call, seldom one of another form, and the name it makes.
    fn line(&mut self) -> (String, Option<&'static str>) {
        let line = match self.random.below(60) {
            kind @ 0..=19 => {
                let name = self.name();
                let line = match kind {
                    0..=6 => format!("create {name}"),
                    7..=11 => format!("mkdir {name}"),
                    12..=15 => format!("link {} {name}", self.old_name()),
                    _ => format!("move {} {name}", self.old_name()),
                };
                return (line, Some(name));
            }
            20..=24 => format!("open {}", self.old_name()),
            25..=28 => format!("close {}", self.channel()),
            29..=33 => format!("read {} {}", self.channel(), self.length()),
            34..=41 => self.write(),
            42..=47 => self.seek(),
            48..=49 => format!("fstat {}", self.channel()),
            50..=52 => format!("unlink {}", self.old_name()),
            53..=54 => format!("ls {}", self.old_name()),
            55..=57 => format!("rmdir {}", self.old_name()),
            58 => String::from("room"),
            _ => self.odd(),
        };
        (line, None)
    }

    fn name(&mut self) -> &'static str {
        const COMMON: [&str; 7] = ["/a", "/b", "/d", "/d/x", "/d/e", "/d/e/y", "/d/e/f"];
        const RARE: [&str; 12] = [
            "/",
            "//",
            "/a/",
            "a",
            "/a/b",
            "/d/e/y/z",
            "/none/x",
            "/.",
            "/abcdefghijklmn",
            "/abcdefghijklmno",
            "/1/2/3/4/5/6/7/8",
            "/1/2/3/4/5/6/7/8/9",
        ];
        if self.random.chance(93) {
            self.random.pick(&COMMON)
        } else {
            self.random.pick(&RARE)
        }
    }

    /// A name that is likely to stand for something.
    fn old_name(&mut self) -> &'static str {
        if self.made.is_empty() || self.random.chance(20) {
            self.name()
        } else {
            self.random.pick(&self.made)
        }
    }

    fn channel(&mut self) -> &'static str {
        const RARE: [&str; 5] = ["2", "3", "65536", "4294967295", "00"];
        if self.random.chance(95) {
            self.random.pick(&["0", "0", "1"])
        } else {
            self.random.pick(&RARE)
        }
    }

    fn length(&mut self) -> usize {
        match self.random.below(8) {
            0 => 0,
            1 => 16,
            2 => 40,
            _ => 1 + self.random.below(12),
        }
    }

    /// A write of a few bytes, now and then of none or of many.
    fn write(&mut self) -> String {
        const LETTERS: &[u8] = b"ABCDEFGHIJKLMNOPQRSTUVWXYZ \\\"/#{}~0";
        let count = match self.random.below(16) {
            0 | 1 => return format!("write {}", self.channel()),
            2 => 20 + self.random.below(40),
            3 => 480 + self.random.below(64),
            _ => 1 + self.random.below(9),
        };
        let mut line = format!("write {} ", self.channel());
        line.extend((0..count).map(|_| char::from(self.random.pick(LETTERS))));
        line
    }

    /// A seek, mostly to a small position or about the end of a block.
    fn seek(&mut self) -> String {
        const EDGES: [u32; 12] = [
            500, 511, 512, 513, 1020, 1536, 2047, 2049, 32_767, 32_768, 16_777_215, 16_777_216,
        ];
        let random = &mut self.random;
        let mode = if random.chance(95) {
            random.pick(&[0, 0, 0, 1, 2, 3, 4, 5])
        } else {
            6
        };
        let n = match mode {
            _ if random.chance(5) => random.pick(&[32_767, 32_768, 4_294_967_295]),
            0..=2 if random.chance(35) => random.pick(&EDGES),
            0..=2 => random.below(20) as u32,
            _ => random.below(5) as u32,
        };
        format!("seek {} {mode} {n}", self.channel())
    }

    /// A line of another form, or one at the edge of a form.
    fn odd(&mut self) -> String {
        const ODD: [&str; 24] = [
            "",
            " room",
            "room ",
            "prepare",
            "prepare 1",
            "write 0 ",
            "write 0  X",
            "write",
            "read 0 2048",
            "read 0 2049",
            "read 9 2049",
            "read 0",
            "seek 0 0",
            "seek 0 0 -1",
            "seek 0 0 +1",
            "seek 0 0 4294967296",
            "seek 00 000 0000000000007",
            "close 4294967296",
            "create",
            "create /a /b",
            "link /a",
            "Room",
            "ls  /",
            "destroy /a",
        ];
        self.random.pick(&ODD).to_owned()
    }
}

fn serve(program: &mut Program, line: &str) -> String {
    let mut out = Vec::new();
    program.serve_line(line.as_bytes(), &mut out);
    out.pop();
    String::from_utf8(out).expect("the program prints ASCII")
}

/// How often in a hundred throws a line of that answer is kept.
fn worth(answer: &str) -> usize {
    match answer.split(' ').next() {
        Some("0") => 100,
        Some("3" | "4") => 4,
        Some("2" | "6" | "?") => 25,
        Some("5" | "7" | "12") => 50,
        _ => 100,
    }
}

#[cfg(test)]
mod tests {
    use super::*;
    use crate::text::serve;

    /// A session's answers are what the program prints for its lines as one text.
    #[test]
    fn answers_are_the_programs() {
        for seed in 0..200 {
            let session = Session::new(seed, 30);
            let join = |of: fn(&Served) -> &String| {
                session
                    .lines
                    .iter()
                    .map(|l| of(l).clone() + "\n")
                    .collect::<String>()
            };
            let printed = serve(join(|l| &l.line).as_bytes());
            assert_eq!(printed, join(|l| &l.answer).into_bytes(), "seed {seed}");
        }
    }

    /// Sessions reach every report that the program's store can give: all but
    /// NotAStore and OutShort.
    #[test]
    fn every_report_is_reached() {
        let mut reached = [false; 16];
        for seed in 0..500 {
            for served in Session::new(seed, 14).lines {
                let report = served.answer.split(' ').next().expect("a word");
                if let Ok(number) = report.parse::<usize>() {
                    reached[number] = true;
                }
            }
        }
        let missing: Vec<_> = (0..16).filter(|&number| !reached[number]).collect();
        assert_eq!(missing, [1, 14]);
    }
}
