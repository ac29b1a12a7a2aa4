//! Books the morning of README.md and prints the board after it. With the argument `dock` on a [`Dock`], whose calls don't
//! include check 0; else on a [`Board`], whose calls do.
use bayboard::{members, Board, Calls, Dock, Mark, Plan, Refusal};

/// Minutes after midnight: 360 is 6:00.
fn book(dock: &mut impl Calls) -> Result<(), Refusal> {
    let dairy = dock.addition(45, 360, 480, Mark::Valid)?; // 6:00 to 8:00
    let van = dock.addition(30, 390, 540, Mark::Valid)?; // 6:30 to 9:00
    let beverages = dock.addition(60, 360, 600, Mark::Undecided)?; // not confirmed, 6:00 to 10:00
    let returns = dock.addition(20, 420, 500, Mark::Valid)?; // 7:00 to 8:20
    assert_eq!([dairy, van, beverages, returns], [0, 1, 2, 3]);
    dock.arc(dairy, van)?; // the van takes what the dairy truck brings
    dock.cut(dairy, 390, 480)?; // the dairy truck phones: not before 6:30
    dock.mark(beverages, Mark::Valid)?; // the beverages are confirmed,
    dock.cut(beverages, 360, 520)?; // and their driver has to leave at 8:40
    assert_eq!(dock.cut(van, 390, 510), Err(Refusal::Impossible)); // the van would like to leave at 8:30
    Ok(())
}

fn list(set: u64) -> String {
    if set == 0 {
        return " none".to_string();
    }
    members(set).map(|job| format!(" {job}")).collect()
}

fn print(dock: &impl Calls, board: &Board) -> Result<(), Refusal> {
    println!(
        "{} jobs, {} refused as impossible",
        board.jobs, board.books.tally
    );
    for job in 0..board.jobs {
        let row = dock.row(job)?;
        let (mark, before, after) = (row.mark as u8, list(row.before), list(row.after));
        println!(
            "job {job}: mark {mark}, {} to {}, after{before}, before{after}",
            row.earliest, row.latest
        );
    }
    let pair = dock.pair(2, 1)?;
    println!("jobs 2 and 1: arcs {}, gap {}", pair.arcs as u8, pair.gap);
    let Plan::Found {
        tries,
        placed,
        starts,
        ..
    } = dock.plan(1000)?
    else {
        panic!("there is a plan");
    };
    let places: String = members(placed)
        .map(|job| format!(" job {job} at {}", starts[job]))
        .collect();
    println!("plan of {tries} tries:{places}");
    Ok(())
}

fn main() -> Result<(), Refusal> {
    if std::env::args().nth(1).as_deref() == Some("dock") {
        let mut dock = Dock::new();
        book(&mut dock)?;
        print(&dock, dock.board())
    } else {
        let mut board = Board::empty();
        book(&mut board)?;
        print(&board, &board)
    }
}
