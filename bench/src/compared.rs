//! The library beside rustyline: the first table, and how the cost grows, the second.
use crate::editor::Editor;
use crate::inputs::Session;
use crate::library::Library;
use crate::rows::{Row, rows};
use crate::rustyline::Rustyline;
use crate::scenes::{scene, session_size};
use crate::tables::{figure, grouped, head, line, number};
use crate::timing::{Figure, Pair, Side, by_turns};

/// What grows by more is named below the second table: what is lent is four times as much.
const LINEAR: f64 = 5.0;

fn session<E: Editor>(rows: &[Row]) -> Session<E> {
    let scenes = rows.iter().flat_map(|row| row.all_sizes().into_iter().map(|size| (row.scene, size)));
    Session::new(scenes.filter_map(|(scene, size)| session_size(scene, size)).collect())
}

/// Two figures for each row and size: the library's and rustyline's.
pub fn measure(all: bool) -> Vec<Figure> {
    let rows = rows(all);
    let (library, rust) = (session::<Library>(&rows), session::<Rustyline>(&rows));
    let pair = |row: &Row, size: usize| Pair {
        of: format!("{}, {} {}", row.call, grouped(size), row.of),
        library: Side::new(row.batch, size, scene(row.scene, size, &library)),
        rust: (!row.alone).then(|| Side::new(row.batch, size, scene(row.scene, size, &rust))),
    };
    rows.iter().flat_map(|row| by_turns(row.all_sizes().into_iter().map(|size| pair(row, size)).collect())).collect()
}

/// A row with its figures.
struct Measured {
    row: Row,
    /// The library's and rustyline's at each size.
    at: Vec<(usize, [Figure; 2])>,
}

impl Measured {
    fn all(all: bool, figures: &[Figure]) -> Vec<Measured> {
        let mut pairs = figures.chunks(2).map(|pair| [pair[0], pair[1]]);
        let measured = |row: Row| {
            let at = row.all_sizes().into_iter().zip(pairs.by_ref()).collect();
            Measured { row, at }
        };
        rows(all).into_iter().map(measured).collect()
    }

    fn at(&self, size: usize) -> [Figure; 2] {
        self.at.iter().find(|(of, _)| *of == size).expect("a size of the row").1
    }

    /// The medians of a side, the library's (0) or rustyline's (1), at a quarter, a half and all of the size.
    fn medians(&self, side: usize) -> [f64; 3] {
        self.row.sizes.map(|size| self.at(size)[side].median)
    }

    /// All over quarter.
    fn growth(&self, side: usize) -> f64 {
        let [quarter, _, all] = self.medians(side);
        all / quarter
    }
}

pub fn print_first(all: bool, figures: &[Figure]) {
    head(
        "Nanoseconds a call, the ratio of the two, and by what each grows from a quarter to all of the size",
        &["call", "on", "library", "rustyline", "ratio", "library grows", "rustyline grows"],
    );
    for measured in Measured::all(all, figures) {
        for (say, size) in &measured.row.heads {
            let [library, rust] = measured.at(*size);
            line(&[
                measured.row.call.into(),
                say.to_string(),
                figure(&library),
                figure(&rust),
                number(library.median / rust.median),
                number(measured.growth(0)),
                number(measured.growth(1)),
            ]);
        }
    }
}

pub fn print_growth(figures: &[Figure]) {
    head(
        "Nanoseconds a call at a quarter, a half and all of the size, and by what they grow from a quarter to all",
        &["call", "size", "library", "grows", "rustyline", "grows"],
    );
    let all = Measured::all(true, figures);
    for measured in &all {
        let row = &measured.row;
        let three = |side| measured.medians(side).map(number).join(" / ");
        line(&[
            row.call.into(),
            format!("{} {}", row.sizes.map(grouped).join(" / "), row.of),
            three(0),
            number(measured.growth(0)),
            if row.alone { "-".into() } else { three(1) },
            number(measured.growth(1)),
        ]);
    }
    for (side, name) in ["library", "rustyline"].into_iter().enumerate() {
        let above = all.iter().filter(|measured| measured.growth(side) > LINEAR);
        let names: Vec<String> =
            above.map(|measured| format!("{} ({})", measured.row.call, number(measured.growth(side)))).collect();
        println!("\nAbove {LINEAR}, {name}: {}.", if names.is_empty() { "none".into() } else { names.join("; ") });
    }
}
