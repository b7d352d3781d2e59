//! The program of section 8 with the plain model inside.

fn main() {
    plain::program::main(plain::Model::new);
}
