//! Shows a text in a frame of 40 columns, and prints the rows and the cursor as they are read back.
use redisplay::{Session, Status, Wrap};

fn main() -> Result<(), Status> {
    let mut session = Session::open_unicode().expect("memory for a session");
    session.frame(40, 6)?;
    session.mode_line(0, "%* %b  line %l  %p")?;
    session.wrap(0, Wrap::Word)?;
    session.type_text("A line that does not fit goes on at a word in the next row.\nWide 中文\n")?;
    session.update()?;
    for row in 0..session.get_frame()?.row {
        println!("{}", session.get_row_text(row)?.trim_end());
    }
    let cursor = session.get_cursor()?;
    println!("cursor {},{}", cursor.row, cursor.column);
    Ok(())
}
