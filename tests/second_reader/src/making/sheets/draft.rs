//! A sheet as texts, so that any part of it can be spoiled by itself.

/// A row of a section: the name, and its figures as they are written.
#[derive(Clone)]
pub struct Row {
    pub name: Vec<u8>,
    pub figures: Vec<String>,
}

impl Row {
    pub fn new(name: &str, figures: &[u128]) -> Row {
        Row { name: name.as_bytes().to_vec(), figures: figures.iter().map(u128::to_string).collect() }
    }

    fn line(&self) -> Vec<u8> {
        let figures: String = self.figures.iter().map(|figure| format!(" {figure}")).collect();
        [&self.name, figures.as_bytes(), b"\n"].concat()
    }
}

#[derive(Clone)]
pub struct Draft {
    pub scale: String,
    pub span: String,
    pub core_count: String,
    pub cores: Vec<Row>,
    pub process_count: String,
    pub processes: Vec<Row>,
}

impl Draft {
    /// The counts are those of the rows.
    pub fn new(scale: &str, span: u64, cores: Vec<Row>, processes: Vec<Row>) -> Draft {
        let mut draft = Draft {
            scale: scale.to_string(),
            span: span.to_string(),
            core_count: String::new(),
            cores,
            process_count: String::new(),
            processes,
        };
        draft.count_rows();
        draft
    }

    pub fn count_rows(&mut self) {
        self.core_count = self.cores.len().to_string();
        self.process_count = self.processes.len().to_string();
    }

    pub fn text(&self) -> Vec<u8> {
        [self.verdict_line(), self.core_section(), self.process_section()].concat()
    }

    pub fn verdict_line(&self) -> Vec<u8> {
        format!("verdict 0 line 0 scale {} span {}\n", self.scale, self.span).into_bytes()
    }

    pub fn core_section(&self) -> Vec<u8> {
        section(&format!("cores {}\n", self.core_count), &self.cores)
    }

    pub fn process_section(&self) -> Vec<u8> {
        section(&format!("processes {}\n", self.process_count), &self.processes)
    }

    pub fn rows(&mut self) -> Vec<&mut Row> {
        self.cores.iter_mut().chain(&mut self.processes).collect()
    }

    /// Every number that the text shows, but for the two of a verdict.
    pub fn numbers(&mut self) -> Vec<&mut String> {
        let figures = self.cores.iter_mut().chain(&mut self.processes).flat_map(|row| &mut row.figures);
        [&mut self.span, &mut self.core_count, &mut self.process_count].into_iter().chain(figures).collect()
    }
}

fn section(title: &str, rows: &[Row]) -> Vec<u8> {
    let lines: Vec<Vec<u8>> = rows.iter().map(Row::line).collect();
    [title.as_bytes(), &lines.concat()].concat()
}

/// The value of a figure that nothing has spoiled.
pub fn value_of(figure: &str) -> u128 {
    figure.parse().expect("a figure of the maker")
}
