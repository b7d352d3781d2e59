//! The program of section 8 with lol_html's machine inside.

fn main() {
    plain::program::main(|sheet| judge::Judge::new(sheet, false));
}
