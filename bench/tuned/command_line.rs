//! The command line.
use crate::*;

#[derive(Default)]
pub struct Options {
    pub named: Vec<(&'static str, OsString)>,
    pub operands: Vec<OsString>,
}

pub const INSTANCE_OPTIONS: [&str; 7] = [
    "problem", "format", "jobs", "index", "name", "pair", "machines",
];
pub const HELP: &str = "usage: threefield solve OPTIONS INPUT
       threefield check OPTIONS INPUT ANSWER
       threefield gantt [--columns N] ANSWER

OPTIONS
  --problem TEXT           the problem in three-field notation
  --format table|wt|flow   the form of INPUT (default: table)
  --jobs N                 with wt: the number of jobs
  --index K                with wt: the instance, from 1 (default: 1)
  --name NAME              with flow: the instance's name
  --pair I,K               with flow: two of its machines, from 0
  --machines M             the number of machines

INPUT or ANSWER may be - for standard input.
";

impl Options {
    pub fn read(words: &[OsString], allowed: &[&'static str]) -> Res<Option<Options>> {
        let mut options = Options::default();
        let mut words = words.iter();
        let mut only_operands = false;
        while let Some(word) = words.next() {
            let text = word
                .to_str()
                .ok_or(Fault::Usage("an argument is not UTF-8"))?;
            if only_operands || text == "-" || !text.starts_with('-') {
                options.operands.push(word.clone());
                continue;
            }
            if text == "--" {
                only_operands = true;
                continue;
            }
            if text == "-h" || text == "--help" {
                return Ok(None);
            }
            let unknown = Fault::Usage("an unknown option");
            let Some(body) = text.strip_prefix("--") else {
                return Err(unknown);
            };
            let (name, value) = match body.split_once('=') {
                Some((name, value)) => (name, Some(OsString::from(value))),
                None => (body, None),
            };
            let name = *allowed.iter().find(|x| **x == name).ok_or(unknown)?;
            if options.get(name).is_some() {
                return Err(Fault::Usage("an option is given twice"));
            }
            let value = match value {
                Some(value) => value,
                None => words
                    .next()
                    .filter(|w| {
                        let w = w.as_encoded_bytes();
                        w == b"-" || w.first() != Some(&b'-')
                    })
                    .cloned()
                    .ok_or(Fault::Usage("an option has no value"))?,
            };
            if value.to_str().is_none() {
                return Err(Fault::Usage("an argument is not UTF-8"));
            }
            options.named.push((name, value));
        }
        Ok(Some(options))
    }

    pub fn get(&self, name: &str) -> Option<&str> {
        self.named
            .iter()
            .find(|(n, _)| *n == name)
            .and_then(|(_, v)| v.to_str())
    }

    pub fn number(&self, name: &str, low: u64, high: u64) -> Res<Option<u32>> {
        self.get(name)
            .map(|text| option_number(text, low, high))
            .transpose()
    }
}

pub fn option_number(text: &str, low: u64, high: u64) -> Res<u32> {
    match wide(text.as_bytes()) {
        Some((_, size)) if !text.starts_with('-') && low <= size && size <= high => Ok(size as u32),
        _ => Err(Fault::Usage("a number is out of its range")),
    }
}

pub enum Form {
    Table,
    Wt {
        jobs: usize,
        index: u64,
    },
    Flow {
        name: String,
        pair: Option<(u32, u32)>,
    },
}

pub struct Request {
    pub problem: String,
    pub form: Form,
    pub machines: Option<u32>,
}

impl Request {
    pub fn new(options: &Options) -> Res<Request> {
        let problem = options
            .get("problem")
            .ok_or(Fault::Usage("--problem is missing"))?;
        let form = match options.get("format").unwrap_or("table") {
            "table" => Form::Table,
            "wt" => {
                let jobs = options.number("jobs", 1, MAX_JOBS as u64)?;
                Form::Wt {
                    jobs: jobs.ok_or(Fault::Usage("--jobs is missing"))? as usize,
                    index: options.number("index", 1, u32::MAX as u64)?.unwrap_or(1) as u64,
                }
            }
            "flow" => {
                let name = options
                    .get("name")
                    .ok_or(Fault::Usage("--name is missing"))?;
                let pair = match options.get("pair") {
                    None => None,
                    Some(text) => {
                        let (i, k) = text
                            .split_once(',')
                            .ok_or(Fault::Usage("--pair wants two numbers"))?;
                        Some((option_number(i, 0, 1000)?, option_number(k, 0, 1000)?))
                    }
                };
                Form::Flow {
                    name: name.to_string(),
                    pair,
                }
            }
            _ => return Err(Fault::Usage("an unknown format")),
        };
        let machines = options.number("machines", 1, MAX_MACHINES as u64)?;
        Ok(Request {
            problem: problem.to_string(),
            form,
            machines,
        })
    }

    pub fn task(&self, source: &mut Source) -> Res<(Problem, Task)> {
        let problem = match notation(self.problem.as_bytes()) {
            Ok(problem) => problem,
            Err(byte) => return refused(format!("NotationFault {byte}")),
        };
        let Some(class) = Class::of(&problem) else {
            return refused("NoSolver");
        };
        let mut task = reading(source, |source| match &self.form {
            Form::Table => read_table(source, class),
            Form::Wt { jobs, index } => read_wt(source, class, *jobs, *index),
            Form::Flow { name, pair } => read_flow(source, class, name.as_bytes(), *pair),
        })?;
        task.prepare(&problem, self.machines)?;
        Ok((problem, task))
    }
}

pub fn run() -> Res<i32> {
    let arguments: Vec<OsString> = env::args_os().skip(1).collect();
    let Some((command, rest)) = arguments.split_first() else {
        return Err(Fault::Usage("a command is missing"));
    };
    let (allowed, wanted): (&[&'static str], usize) = match command.to_str() {
        Some("solve") => (&INSTANCE_OPTIONS, 1),
        Some("check") => (&INSTANCE_OPTIONS, 2),
        Some("gantt") => (&["columns"], 1),
        Some("-h" | "--help") => return print(HELP).map(|()| 0),
        Some("-V" | "--version") => return print("threefield (plain)\n").map(|()| 0),
        _ => return Err(Fault::Usage("an unknown command")),
    };
    let Some(options) = Options::read(rest, allowed)? else {
        return print(HELP).map(|()| 0);
    };
    if options.operands.len() != wanted || options.operands.iter().filter(|w| *w == "-").count() > 1
    {
        return Err(Fault::Usage("the inputs are not those of the command"));
    }
    let columns = options.number("columns", 1, 1000)?.unwrap_or(72);
    let request = if wanted == 2 || allowed.len() > 1 {
        Some(Request::new(&options)?)
    } else {
        None
    };
    let mut sources = options
        .operands
        .iter()
        .map(Source::open)
        .collect::<Res<Vec<_>>>()?;
    let Some(request) = request else {
        let mut sheet = answer_text(&mut sources[0])?;
        schedule(&mut sheet.pieces).map_err(|text| answer_fault(Fault::Refused(text)))?;
        return chart(&sheet.pieces, sheet.machines, columns as u64).map(|()| 0);
    };
    let (problem, task) = request.task(&mut sources[0])?;
    if wanted == 1 {
        return solve(&problem, &task).map(|()| 0);
    }
    let mut sheet = answer_text(&mut sources[1])?;
    let same = Class::of(&sheet.problem) == Some(task.class)
        && (sheet.jobs as usize, sheet.machines as usize) == (task.n, task.m);
    let verdict = if same {
        check(&task, &mut sheet)
    } else {
        say("OtherTask")
    };
    match verdict {
        Ok(()) => print("accepted\n").map(|()| 0),
        Err(reason) => print(&format!("rejected: {reason}\n")).map(|()| 1),
    }
}

pub fn main() {
    let (status, line) = match run() {
        Ok(status) => (status, String::new()),
        Err(Fault::Refused(text)) => (2, format!("threefield: refused: {text}\n")),
        Err(Fault::Device) => (4, "threefield: device fault\n".to_string()),
        Err(Fault::Usage(text)) => (5, format!("threefield: {text}; see --help\n")),
    };
    let _ = io::stderr().write_all(line.as_bytes());
    exit(status)
}
