use baseline::programs::{run, Build};

fn main() -> std::io::Result<()> {
    run(Build::Nerode)
}
