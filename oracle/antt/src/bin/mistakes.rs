//! One-line mistakes put into a copy of the definitions, one at a time: does a closed check catch each?
//! mistakes RATTLE MODEL LIST WORK TEXT FROM: RATTLE is oracle/rattle, MODEL the crate folder, LIST the list of mistakes, WORK has the crate folders `sequences` and `refusals`
//! of closed checks, and mistakes whose line contains TEXT are tried, from the one with the number FROM on.

use std::cmp::Reverse;
use std::collections::{BTreeMap, BTreeSet};
use std::path::{Path, PathBuf};
use std::process::{Command, ExitCode};
use std::time::Instant;
use std::{env, fs, io};

struct Mistake {
    file: String,
    old: String,
    new: String,
    /// An event, or a module of checks, by which it is likely to be caught.
    hint: String,
    /// Where SPECIFICATION 12 names it, or what it is.
    about: String,
}

/// A module of closed checks, and the events that it shows.
struct Check {
    name: String,
    of_refusals: bool,
    text: String,
    events: Vec<String>,
}

enum Verdict {
    Caught { check: String, theorem: String },
    NotCaught,
    NotBuilt(String),
}

/// Mistakes in these files are looked for by the refusals' checks too, even where the hint names none of them.
const OF_REFUSALS: [&str; 4] = ["Refusals", "Layout", "Numbers", "Perform"];

struct Work {
    rattle: PathBuf,
    model: PathBuf,
    folder: PathBuf,
    /// `Run.antt`, which every check uses.
    run: String,
    checks: Vec<Check>,
    /// How many mistakes of a file a check has caught.
    caught: BTreeMap<(String, String), usize>,
}

fn main() -> io::Result<ExitCode> {
    let arguments: Vec<String> = env::args().skip(1).collect();
    let [rattle, model, list, folder, only, from] = &arguments[..] else {
        eprintln!("wanted: RATTLE MODEL LIST WORK TEXT FROM");
        return Ok(ExitCode::from(2));
    };
    let list = fs::read_to_string(list)?;
    let mistakes: Vec<Mistake> = list.lines().filter(|line| !line.starts_with('#') && line.contains(only)).map(parse).collect();
    let mut work = Work::new(Path::new(rattle), Path::new(model), Path::new(folder))?;
    let begin = Instant::now();
    let mut caught = 0;
    let from: usize = from.parse().unwrap_or(1);
    let tried: Vec<(usize, &Mistake)> = (1..).zip(&mistakes).skip(from - 1).collect();
    for (number, mistake) in &tried {
        let verdict = work.try_mistake(mistake)?;
        caught += usize::from(matches!(verdict, Verdict::Caught { .. }));
        println!("{}", line(*number, mistake, &verdict));
    }
    let without = work.without_mistake()?;
    println!("without a mistake: {without}");
    println!("{} mistakes, {caught} caught; {} s", tried.len(), begin.elapsed().as_secs());
    println!("{caught} passed, {} failed", tried.len() - caught);
    let passed = caught == tried.len() && without.ends_with("hold");
    Ok(if passed { ExitCode::SUCCESS } else { ExitCode::FAILURE })
}

fn parse(line: &str) -> Mistake {
    let fields: Vec<String> = line.split('\t').map(str::to_string).collect();
    let [file, old, new, hint, about] = fields.try_into().unwrap_or_else(|_| panic!("a mistake's line has five fields: {line}"));
    Mistake { file, old, new, hint, about }
}

fn line(number: usize, mistake: &Mistake, verdict: &Verdict) -> String {
    let verdict = match verdict {
        Verdict::Caught { check, theorem } => format!("{check} {theorem}"),
        Verdict::NotCaught => "NOT CAUGHT".to_string(),
        Verdict::NotBuilt(problem) => format!("NOT BUILT {problem}"),
    };
    let about = if mistake.about.is_empty() { String::new() } else { format!(" ({})", mistake.about) };
    let code = |text: &str| text.replace('|', "\\|");
    format!("| {number} | {}{about} | `{}` → `{}` | {verdict} |", mistake.file, code(&mistake.old), code(&mistake.new))
}

impl Work {
    fn new(rattle: &Path, model: &Path, folder: &Path) -> io::Result<Self> {
        let run = inside(&fs::read_to_string(folder.join("sequences/specs/Run.antt"))?);
        let checks = checks(&folder.join("sequences"))?.into_iter().chain(checks(&folder.join("refusals"))?).collect();
        let [rattle, model, folder] = [rattle, model, folder].map(Path::to_path_buf);
        Ok(Self { rattle, model, folder, run, checks, caught: BTreeMap::new() })
    }

    /// Runs some checks, and more of them until one fails: first those that show the hinted event, or caught most in the same file so far. Getdata's are for
    /// its own file.
    fn try_mistake(&mut self, mistake: &Mistake) -> io::Result<Verdict> {
        let score = |check: &Check| self.caught.get(&(mistake.file.clone(), check.name.clone())).copied().unwrap_or(0);
        let shown = |check: &Check| check.events.iter().filter(|event| event.contains(&mistake.hint)).count();
        let refusals_too = OF_REFUSALS.contains(&mistake.file.as_str());
        let of_getdata = |check: &Check| check.name.starts_with("Getdata");
        let wanted = |check: &Check| match mistake.file.as_str() {
            "Getdata" => of_getdata(check),
            _ => !of_getdata(check) && (refusals_too || !check.of_refusals || shown(check) > 0),
        };
        let mut order: Vec<&Check> = self.checks.iter().filter(|check| wanted(check)).collect();
        order.sort_by_key(|check| Reverse((shown(check), score(check))));
        let (mut tried, mut at_once) = (0, 2);
        while tried < order.len() {
            let some = &order[tried..order.len().min(tried + at_once)];
            match self.prove(Some(mistake), some)? {
                None => (tried, at_once) = (tried + at_once, 2 * at_once),
                Some(problem) => {
                    let Some(check) = some.iter().find(|check| problem.contains(&format!("/{}.antt:", check.name))) else {
                        return Ok(Verdict::NotBuilt(problem));
                    };
                    let (check, theorem) = (check.name.clone(), named(&problem));
                    *self.caught.entry((mistake.file.clone(), check.clone())).or_default() += 1;
                    return Ok(Verdict::Caught { check, theorem });
                }
            }
        }
        Ok(Verdict::NotCaught)
    }

    /// Whether the checks that caught something hold of the definitions as they are.
    fn without_mistake(&self) -> io::Result<String> {
        let names: BTreeSet<&String> = self.caught.keys().map(|(_, check)| check).collect();
        let checks: Vec<&Check> = self.checks.iter().filter(|check| names.contains(&check.name)).collect();
        let problem = self.prove(None, &checks)?;
        Ok(problem.unwrap_or_else(|| format!("the {} files of checks that caught one hold", checks.len())))
    }

    /// The first error in the definitions, but for the figures, with the mistake and together with some checks.
    fn prove(&self, mistake: Option<&Mistake>, checks: &[&Check]) -> io::Result<Option<String>> {
        let copy = self.folder.join("copy/model");
        if copy.exists() {
            fs::remove_dir_all(&copy)?;
        }
        for part in ["src", "specs"] {
            fs::create_dir_all(copy.join(part))?;
            for file in fs::read_dir(self.model.join(part))? {
                let file = file?;
                fs::copy(file.path(), copy.join(part).join(file.file_name()))?;
            }
        }
        let specs = copy.join("specs");
        fs::remove_file(specs.join("Figures.antt"))?;
        let modules: String = checks.iter().map(|check| format!("pub mod {}\n", check.name)).collect();
        edit(&specs.join("Lib.antt"), "pub mod Figures\n", &format!("pub mod Run\n{modules}"))?
            .expect("the figures are listed once");
        fs::write(specs.join("Run.antt"), &self.run)?;
        for check in checks {
            fs::write(specs.join(format!("{}.antt", check.name)), &check.text)?;
        }
        if let Some(Mistake { file, old, new, .. }) = mistake
            && let Err(problem) = edit(&specs.join(format!("{file}.antt")), old, new)?
        {
            return Ok(Some(problem));
        }
        let output = Command::new(&self.rattle).args(["check", "model"]).arg(&copy).output()?;
        Ok((!output.status.success()).then(|| first_error(&output.stdout, &output.stderr)))
    }
}

/// The modules of a crate of closed checks.
fn checks(folder: &Path) -> io::Result<Vec<Check>> {
    let library = fs::read_to_string(folder.join("specs/Lib.antt"))?;
    let index = fs::read_to_string(folder.join("events.txt")).unwrap_or_default();
    let names = library.lines().filter_map(|line| line.strip_prefix("pub mod ")).filter(|name| *name != "Run");
    names
        .map(|name| {
            let shown = index.lines().filter_map(|line| line.split_once('\t')).filter(|(module, _)| *module == name);
            let events = shown.map(|(_, event)| event).chain([name]).map(str::to_string).collect();
            let text = inside(&fs::read_to_string(folder.join(format!("specs/{name}.antt")))?);
            Ok(Check { name: name.to_string(), of_refusals: !folder.ends_with("sequences"), text, events })
        })
        .collect()
}

/// A module of closed checks as one of the definitions' own crate.
fn inside(text: &str) -> String {
    text.replace("Rattle.closed.specs.", "Rattle.model.specs.")
}

/// Puts the new text where the old one stands, if it stands there once.
fn edit(file: &Path, old: &str, new: &str) -> io::Result<Result<(), String>> {
    let text = fs::read_to_string(file)?;
    let count = text.matches(old).count();
    if count != 1 {
        return Ok(Err(format!("the old text stands there {count} times")));
    }
    fs::write(file, text.replacen(old, new, 1))?;
    Ok(Ok(()))
}

fn first_error(stdout: &[u8], stderr: &[u8]) -> String {
    let text = format!("{}{}", String::from_utf8_lossy(stdout), String::from_utf8_lossy(stderr));
    text.lines().find(|line| line.contains("error")).unwrap_or("no error is named").chars().take(300).collect()
}

/// The theorem that an error names.
fn named(error: &str) -> String {
    error.split('`').nth(1).unwrap_or(error).to_string()
}
