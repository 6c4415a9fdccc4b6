//! Two libraries in time: programs that are linked with the one and with the other, asked row by
//! row in turn, so that both meet the same moments of the machine.
//!
//! A program that is asked prints its rows' titles and an empty line. At each number of a row
//! that it reads then it times the row once more and prints the time.

use std::io::{self, BufRead, BufReader, Write};
use std::process::{Child, ChildStdin, ChildStdout, Command, Stdio};

/// How often each program is started, since its memory lies elsewhere each time.
const STARTS: usize = 3;
/// How often it times each row then.
const ROUNDS: usize = 120;

/// A row in which the proved library is timed.
pub trait Timed {
    fn title(&self) -> String;
    /// Times the row once more, in microseconds.
    fn time(&mut self) -> f64;
}

/// Times the rows that are asked for, until nothing more is.
pub fn answer(
    mut rows: Vec<Box<dyn Timed>>,
    from: impl BufRead,
    mut to: impl Write,
) -> io::Result<()> {
    for row in &rows {
        writeln!(to, "{}", row.title())?;
    }
    writeln!(to)?;
    to.flush()?;
    for line in from.lines() {
        let number: usize = line?.parse().map_err(io::Error::other)?;
        let row = rows.get_mut(number);
        let row = row.ok_or_else(|| io::Error::other("no such row"))?;
        writeln!(to, "{}", row.time())?;
        to.flush()?;
    }
    Ok(())
}

/// A program that is asked for times; it ends when it is asked no more.
struct Asked {
    child: Child,
    to: ChildStdin,
    from: BufReader<ChildStdout>,
}

impl Asked {
    fn start(program: &str) -> io::Result<Asked> {
        let mut child = Command::new(program)
            .arg("--times")
            .stdin(Stdio::piped())
            .stdout(Stdio::piped())
            .spawn()?;
        let piped = child.stdin.take().zip(child.stdout.take());
        let (to, from) = piped.ok_or_else(|| io::Error::other("no pipes"))?;
        let from = BufReader::new(from);
        Ok(Asked { child, to, from })
    }

    /// The next line that the program prints, without its end.
    fn line(&mut self) -> io::Result<String> {
        let mut line = String::new();
        self.from.read_line(&mut line)?;
        let whole = line.strip_suffix('\n').map(String::from);
        whole.ok_or_else(|| io::Error::other("a program has ended"))
    }

    fn titles(&mut self) -> io::Result<Vec<String>> {
        let mut titles = Vec::new();
        loop {
            let line = self.line()?;
            if line.is_empty() {
                return Ok(titles);
            }
            titles.push(line);
        }
    }

    fn time(&mut self, row: usize) -> io::Result<f64> {
        writeln!(self.to, "{row}")?;
        self.line()?.parse().map_err(io::Error::other)
    }

    fn end(mut self) -> io::Result<()> {
        drop(self.to);
        self.child.wait()?;
        Ok(())
    }
}

/// A time of the one program and the time of the other that was taken next to it.
#[derive(Clone, Copy)]
struct Pair {
    before: f64,
    after: f64,
}

impl Pair {
    /// Times a row in both programs, in the one order and in the other by turns.
    fn timed(programs: &mut [Asked; 2], row: usize, round: usize) -> io::Result<Pair> {
        let mut times = [0.0; 2];
        for turn in [round % 2, (round + 1) % 2] {
            times[turn] = programs[turn].time(row)?;
        }
        let [before, after] = times;
        Ok(Pair { before, after })
    }
}

/// A row of the table: its times, for each two programs that were compared.
struct Row {
    title: String,
    times: Vec<Vec<Pair>>,
}

impl Row {
    fn new(title: String) -> Row {
        let times = Vec::new();
        Row { title, times }
    }

    /// A number of each pair: its median for each two programs, and the geometric mean of these.
    fn typical(&self, number: impl Fn(&Pair) -> f64) -> f64 {
        let medians = self.times.iter().map(|pairs| median(pairs, &number));
        (medians.map(f64::ln).sum::<f64>() / self.times.len() as f64).exp()
    }

    fn print(&self) {
        let before = self.typical(|pair| pair.before);
        let after = self.typical(|pair| pair.after);
        let ratio = self.typical(|pair| pair.after / pair.before);
        println!("| {} | {before:.2} | {after:.2} | {ratio:.3} |", self.title);
    }
}

/// The middle one of a number of each pair.
fn median(pairs: &[Pair], number: impl Fn(&Pair) -> f64) -> f64 {
    let mut sorted: Vec<f64> = pairs.iter().map(number).collect();
    sorted.sort_by(f64::total_cmp);
    sorted[sorted.len() / 2]
}

/// Starts two programs and times every row in both; the rows have to be the same.
fn measure(rows: &mut Vec<Row>, two: usize, programs: &[&str]) -> io::Result<()> {
    let mut programs = [Asked::start(programs[0])?, Asked::start(programs[1])?];
    let titles = programs[0].titles()?;
    if rows.is_empty() {
        rows.extend(titles.iter().cloned().map(Row::new));
    }
    let as_before = rows.iter().map(|row| &row.title).eq(&titles);
    if !as_before || titles != programs[1].titles()? {
        return Err(io::Error::other("the programs have different rows"));
    }
    for row in rows.iter_mut() {
        row.times.resize(two + 1, Vec::new());
    }
    for round in 0..ROUNDS {
        for (number, row) in rows.iter_mut().enumerate() {
            row.times[two].push(Pair::timed(&mut programs, number, round)?);
        }
    }
    programs.into_iter().try_for_each(Asked::end)
}

/// Compares programs, the one of before and the one of after next to each other, and prints the
/// table.
pub fn run(programs: &[&str]) -> io::Result<()> {
    let mut rows = Vec::new();
    for (two, programs) in programs.chunks_exact(2).enumerate() {
        for _ in 0..STARTS {
            measure(&mut rows, two, programs)?;
        }
    }
    println!("| microseconds | before | after | after / before |");
    println!("|---|--:|--:|--:|");
    rows.iter().for_each(Row::print);
    Ok(())
}

#[cfg(test)]
mod tests {
    use super::*;

    /// A row that gets one faster each time.
    struct Faster(f64);

    impl Timed for Faster {
        fn title(&self) -> String {
            format!("from {}", self.0)
        }

        fn time(&mut self) -> f64 {
            self.0 -= 1.0;
            self.0
        }
    }

    fn answered(asked: &str) -> io::Result<String> {
        let rows: Vec<Box<dyn Timed>> = vec![Box::new(Faster(9.5)), Box::new(Faster(5.0))];
        let mut text = Vec::new();
        answer(rows, asked.as_bytes(), &mut text)?;
        Ok(String::from_utf8(text).expect("text"))
    }

    #[test]
    fn the_row_that_is_asked_for_is_timed() {
        let text = answered("1\n0\n1\n").expect("rows 0 and 1");
        assert_eq!(text, "from 9.5\nfrom 5\n\n4\n8.5\n3\n");
    }

    #[test]
    fn no_other_row_is() {
        assert!(answered("2\n").is_err());
        assert!(answered("one\n").is_err());
    }

    #[test]
    fn medians_are_taken_of_two_programs_and_then_their_mean() {
        let pairs = |times: [[f64; 2]; 3]| {
            let pair = |[before, after]: [f64; 2]| Pair { before, after };
            times.map(pair).to_vec()
        };
        let row = Row {
            title: String::new(),
            times: vec![
                pairs([[1.0, 4.0], [9.0, 1.0], [2.0, 2.0]]),
                pairs([[8.0, 8.0], [8.0, 2.0], [8.0, 16.0]]),
            ],
        };
        assert_eq!(row.typical(|pair| pair.before), 4.0);
        assert_eq!(row.typical(|pair| pair.after / pair.before), 1.0);
    }
}
