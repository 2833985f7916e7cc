//! The same work on the proved library and on the Rust text; writes a Markdown table of ns per call.
//! Words on the command line choose the rows whose call has one of them.
mod ours;
mod plain;
mod rows;
mod side;
mod text;

fn main() {
    println!("| call | page | pages | value | ours, ns | Rust text, ns | text / ours | plain, ns | ours / plain |");
    println!("|---|--:|--:|--:|--:|--:|--:|--:|--:|");
    for value in [8, 200] {
        rows::all::<256>(4, value);
        rows::all::<4096>(4, value);
        rows::all::<4096>(64, value);
    }
}
