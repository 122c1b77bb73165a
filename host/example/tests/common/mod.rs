//! A network of processes: the lines that each says are carried to all others.

use std::fs;
use std::io::{BufRead, BufReader, Write};
use std::path::{Path, PathBuf};
use std::process::{Child, ChildStdin, Command, Stdio};
use std::sync::mpsc::{channel, Receiver, Sender};
use std::time::{Duration, Instant};

/// How long a network may take for what is waited for.
const PATIENCE: Duration = Duration::from_secs(120);

/// Bytes as digits.
pub fn digits(bytes: &[u8]) -> String {
    bytes.iter().map(|byte| format!("{byte:02x}")).collect()
}

/// An example host, as an executable file.
#[derive(Clone, Debug)]
pub struct Program(PathBuf);

impl Program {
    /// The one in Rust.
    pub fn rust() -> Program {
        Program(env!("CARGO_BIN_EXE_example-host").into())
    }

    /// The one in C, compiled for this run with warnings as errors; none, with a note, where there is no library or no
    /// C compiler. The gate has both.
    #[cfg(feature = "proved")]
    pub fn c() -> Option<Program> {
        let here = Path::new(env!("CARGO_MANIFEST_DIR"));
        // Tests run side by side: each compiles its own.
        let name = std::thread::current().name().unwrap_or("host").replace(':', "_");
        let program = Path::new(env!("CARGO_TARGET_TMPDIR")).join(format!("{name}.host"));
        let command = &mut Command::new("cc");
        command.args(["-std=c99", "-Wall", "-Wextra", "-Wpedantic", "-Werror", "-I"]);
        command.arg(here.join("../include")).arg(here.join("host.c"));
        match command.arg(mavunilai::ARCHIVE).arg("-o").arg(&program).output() {
            Ok(ended) => {
                let said = String::from_utf8_lossy(&ended.stderr).into_owned();
                assert!(ended.status.success(), "{said}");
                Some(Program(program))
            }
            Err(problem) => {
                eprintln!("not tried in C, no compiler: {problem}");
                None
            }
        }
    }

    /// Without the library there is none in C.
    #[cfg(not(feature = "proved"))]
    pub fn c() -> Option<Program> {
        eprintln!("not tried in C, without the library");
        None
    }
}

/// What all stations of a network share.
pub struct Setting {
    /// Names the folder of the network's files.
    pub name: String,
    pub weights: [u16; 4],
    pub leaders: Vec<u8>,
    /// Δ in milliseconds.
    pub delta: u64,
}

/// A station that runs.
struct Station {
    child: Child,
    input: ChildStdin,
    /// How often this station has begun: what an earlier life said is not heard.
    life: usize,
}

/// A line that a station said in one of its lives.
type Said = (usize, usize, String);

/// Four stations, as far as they run.
pub struct Network {
    setting: Setting,
    folder: PathBuf,
    cast: [Program; 4],
    stations: [Option<Station>; 4],
    lives: usize,
    registers: [Vec<String>; 4],
    said: (Sender<Said>, Receiver<Said>),
}

impl Network {
    /// Four stations that do not run yet, without books.
    pub fn new(setting: Setting, cast: &[Program; 4]) -> Network {
        let folder = Path::new(env!("CARGO_TARGET_TMPDIR")).join(&setting.name);
        _ = fs::remove_dir_all(&folder);
        fs::create_dir_all(&folder).unwrap();
        Network {
            setting,
            folder,
            cast: cast.clone(),
            stations: Default::default(),
            lives: 0,
            registers: Default::default(),
            said: channel(),
        }
    }

    /// Begins a station and hands it these entries.
    pub fn begin(&mut self, own: usize, entries: &[[u8; 16]]) {
        let weights = self.setting.weights.map(|weight| weight.to_string()).join(",");
        let leaders = self.setting.leaders.iter().map(u8::to_string).collect::<Vec<_>>().join(",");
        let [book, evidence] = ["book", "evidence"].map(|name| self.file(name, own));
        let command = &mut Command::new(&self.cast[own].0);
        command.arg(book).args(["4", &own.to_string(), &weights, &leaders]);
        command.arg(self.setting.delta.to_string()).arg(evidence);
        let child = command.stdin(Stdio::piped()).stdout(Stdio::piped()).stderr(Stdio::piped());
        let mut child = child.spawn().unwrap();
        self.lives += 1;
        let (life, said) = (self.lives, self.said.0.clone());
        let output = BufReader::new(child.stdout.take().unwrap());
        std::thread::spawn(move || {
            output.lines().map_while(Result::ok).for_each(|line| _ = said.send((own, life, line)));
        });
        let input = child.stdin.take().unwrap();
        self.registers[own].clear();
        self.stations[own] = Some(Station { child, input, life });
        entries.iter().for_each(|entry| self.say(own, &format!("entry {}", digits(entry))));
    }

    /// Has another program play a station from its next life on.
    pub fn recast(&mut self, own: usize, program: &Program) {
        self.cast[own] = program.clone();
    }

    /// The next line that any station says; it is carried to nobody.
    pub fn hear(&self) -> String {
        self.said.1.recv_timeout(PATIENCE).unwrap().2
    }

    /// A file of a station.
    pub fn file(&self, name: &str, own: usize) -> PathBuf {
        self.folder.join(format!("{name}{own}"))
    }

    /// Says a line to a station, if it runs.
    pub fn say(&mut self, to: usize, line: &str) {
        if let Some(station) = &mut self.stations[to] {
            _ = writeln!(station.input, "{line}");
        }
    }

    /// Carries lines until the registers are as they should be.
    pub fn carry(&mut self, done: impl Fn(&[Vec<String>; 4]) -> bool) {
        let until = Instant::now() + PATIENCE;
        while !done(&self.registers) {
            let left = until.saturating_duration_since(Instant::now());
            if !self.carry_one(left) {
                let complaints = self.complaints();
                panic!("nothing more is said; {:?}: {complaints:?}", self.registers);
            }
        }
    }

    /// Carries lines until nobody says anything for so long.
    pub fn carry_until_silent(&mut self, silence: Duration) {
        while self.carry_one(silence) {}
    }

    /// Carries the next line; false if none is said for so long.
    fn carry_one(&mut self, patience: Duration) -> bool {
        let Ok((from, life, line)) = self.said.1.recv_timeout(patience) else {
            return false;
        };
        let lives = self.stations[from].as_ref().is_some_and(|station| station.life == life);
        match line.strip_prefix("settled ") {
            Some(entry) if lives => self.registers[from].push(entry.to_string()),
            Some(_) => {}
            None => (0..4).filter(|to| *to != from).for_each(|to| self.say(to, &line)),
        }
        true
    }

    /// What a station's register has, as it told it.
    pub fn register(&self, station: usize) -> &[String] {
        &self.registers[station]
    }

    /// What a station has kept as evidence.
    pub fn evidence(&self, station: usize) -> String {
        fs::read_to_string(self.file("evidence", station)).unwrap()
    }

    /// Kills a station, in the middle of what it does.
    pub fn kill(&mut self, station: usize) {
        let mut station = self.stations[station].take().unwrap();
        station.child.kill().unwrap();
        station.child.wait().unwrap();
    }

    /// Ends every station's input: each ends well.
    pub fn end(&mut self) {
        for station in self.stations.iter_mut().filter_map(Option::take) {
            drop(station.input);
            let ended = station.child.wait_with_output().unwrap();
            assert!(ended.status.success(), "{}", String::from_utf8_lossy(&ended.stderr));
        }
    }

    /// Kills all that runs, and gives what each said for people.
    fn complaints(&mut self) -> Vec<String> {
        let stations = self.stations.iter_mut().filter_map(Option::take);
        let told = stations.map(|mut station| {
            _ = station.child.kill();
            let ended = station.child.wait_with_output().unwrap();
            String::from_utf8_lossy(&ended.stderr).into_owned()
        });
        told.collect()
    }
}

impl Drop for Network {
    /// No process is left behind by a test that fails.
    fn drop(&mut self) {
        self.complaints();
    }
}
