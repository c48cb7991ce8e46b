//! How a sheet comes to a blocking verdict: shortest ways to global states that show it.

use super::library::Judgement;
use super::model::{Local, Mark, Sheet};
use super::search::{Global, Path, Search};
use super::show;

/// What a global state shows beside the state that a verdict names.
#[derive(Clone, Copy)]
enum Sight {
    Abort,
    Commit,
    Unvoted,
}

/// Each sight. The first two together show that condition 1 is broken, the last two condition 2.
const SIGHTS: [Sight; 3] = [Sight::Abort, Sight::Commit, Sight::Unvoted];

/// A shortest way to a sight.
struct Way {
    sight: Sight,
    path: Path,
}

impl Sight {
    /// Whether a global state shows this beside a local state.
    fn shows(self, sheet: &Sheet, local: Local, global: &Global) -> bool {
        let shown = match self {
            Sight::Abort => global.elsewhere(sheet, local.0, Mark::Abort),
            Sight::Commit => global.elsewhere(sheet, local.0, Mark::Commit),
            Sight::Unvoted => !global.unvoted(sheet).is_empty(),
        };
        shown && global.has(local)
    }

    fn words(self) -> &'static str {
        match self {
            Sight::Abort => "while another site has aborted",
            Sight::Commit => "while another site has committed",
            Sight::Unvoted => "before every site has voted yes",
        }
    }

    /// What the steps of a way to this are called in a drawing: a1, a2, ..
    fn letter(self) -> char {
        match self {
            Sight::Abort => 'a',
            Sight::Commit => 'c',
            Sight::Unvoted => 'v',
        }
    }
}

/// The state that a blocking verdict names, and the ways that show why it is blocked.
pub struct Explanation<'a> {
    sheet: &'a Sheet,
    blocked: Local,
    ways: Vec<Way>,
}

/// The explanation of a blocking verdict; a nonblocking one needs none.
pub fn explanation<'a>(
    sheet: &'a Sheet,
    judgement: &Judgement,
    search: &Search,
) -> Option<Explanation<'a>> {
    let (site, state, _) = judgement.witness?;
    let blocked = (site, state);
    let way = |sight: Sight| {
        let path = search.shortest(|global| sight.shows(sheet, blocked, global))?;
        Some(Way { sight, path })
    };
    Some(Explanation { sheet, blocked, ways: SIGHTS.into_iter().filter_map(way).collect() })
}

impl Explanation<'_> {
    /// The ways as text.
    pub fn text(&self) -> String {
        let blocked = self.sheet.called(self.blocked);
        let mut text = "\nhow it comes to that, in the fewest transitions:\n".to_string();
        for Way { sight, path } in &self.ways {
            text += &format!("  {blocked} {}:\n{}", sight.words(), lines(self.sheet, path));
        }
        text
    }

    /// For each transition its steps on the ways, as a drawing marks them: `a1 c1`.
    pub fn steps(&self) -> Vec<String> {
        let mut steps = vec![Vec::new(); self.sheet.transitions.len()];
        for Way { sight, path } in &self.ways {
            for (place, &number) in (1..).zip(&path.steps) {
                steps[number].push(format!("{}{place}", sight.letter()));
            }
        }
        steps.iter().map(|steps| steps.join(" ")).collect()
    }

    /// What those marks mean.
    pub fn legend(&self) -> String {
        let meaning = |way: &Way| format!("{} ({})", way.sight.words(), way.sight.letter());
        let meanings: Vec<String> = self.ways.iter().map(meaning).collect();
        let blocked = self.sheet.called(self.blocked);
        format!("Red steps are the fewest to {blocked} {}.", meanings.join(", "))
    }
}

/// The lines of a way: its transitions as a sheet has them, and the global state at its end.
pub fn lines(sheet: &Sheet, path: &Path) -> String {
    let steps = path.steps.iter().map(|&number| &sheet.transitions[number]);
    let mut text = String::new();
    for line in show::aligned(sheet, steps) {
        text += &format!("    {line}\n");
    }
    let start = if path.steps.is_empty() { "at first" } else { "then" };
    text + &format!("    {start}: {}\n", described(sheet, &path.end))
}

/// `1.2 a, 2.1 w; outstanding: abort2; no yes yet from 1`
fn described(sheet: &Sheet, global: &Global) -> String {
    let locals: Vec<String> =
        global.locals(sheet).into_iter().map(|local| sheet.called(local)).collect();
    let outstanding = match global.outstanding {
        0 => "nothing is outstanding".to_string(),
        set => format!("outstanding: {}", sheet.names(set).join(" ")),
    };
    let votes = match &global.unvoted(sheet)[..] {
        [] => "all have voted yes".to_string(),
        sites => {
            let sites: Vec<String> = sites.iter().map(u8::to_string).collect();
            format!("no yes yet from {}", sites.join(", "))
        }
    };
    format!("{}; {outstanding}; {votes}", locals.join(", "))
}
