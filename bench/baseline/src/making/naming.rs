//! Names as a winch maker would give them: long beginnings in common, or long
//! ends; and names that are as short as can be.

const PARTS: [&str; 4] = ["Brake", "Tension", "Position_10ms", "Sync"];

/// What most names of a trace have in common.
#[derive(Clone, Copy, Debug, PartialEq, Eq)]
pub enum Naming {
    /// `RUN_WinchControl_Step_0012`
    BeginAlike,
    /// `0012_Step_WinchControl_RUN`
    EndAlike,
    /// `R12`: a letter for each kind, so that no name stands for two. Times are
    /// short too.
    Short,
}

impl Naming {
    /// The same axis has several parts: `TASK_WinchControl_Axis_0007_Brake`.
    pub fn axis(self, kind: &str, number: usize) -> String {
        let (axis, part) = (number / PARTS.len(), PARTS[number % PARTS.len()]);
        self.or_short(letter(kind), number, self.arranged(format!("{kind}_WinchControl_Axis_{axis:04}_{part}")))
    }

    pub fn runnable(self, number: usize) -> String {
        self.or_short('R', number, self.arranged(format!("RUN_WinchControl_Step_{number:04}")))
    }

    pub fn semaphore(self, number: usize) -> String {
        self.or_short('S', number, self.arranged(format!("SEM_WinchControl_Bus_{number}")))
    }

    pub fn core(self, number: usize) -> String {
        self.or_short('C', number, format!("Core_{number}"))
    }

    pub fn scheduler(self, number: usize) -> String {
        self.or_short('D', number, format!("Scheduler_{number}"))
    }

    /// The stimulus that wakes processes and writes signals.
    pub fn clock_stimulus(self) -> &'static str {
        match self {
            Naming::Short => "K",
            _ => "STIM_WinchControl_Clock",
        }
    }

    /// The words of a name, in the other order where names end alike.
    fn arranged(self, name: String) -> String {
        match self {
            Naming::EndAlike => name.rsplit('_').collect::<Vec<_>>().join("_"),
            _ => name,
        }
    }

    /// A name, or only its letter and its number where names are short.
    fn or_short(self, letter: char, number: usize, name: String) -> String {
        match self {
            Naming::Short => format!("{letter}{number}"),
            _ => name,
        }
    }
}

/// The letter of a kind that an axis has.
fn letter(kind: &str) -> char {
    match kind {
        "TASK" => 'T',
        "ISR" => 'I',
        "STIM" => 'M',
        "EVT" => 'E',
        // a signal, which has values
        _ => 'V',
    }
}
