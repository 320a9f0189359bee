//! Audits the logs that are named.

use lichenknit::Logs;

fn main() -> std::io::Result<()> {
    for path in std::env::args().skip(1) {
        let text = std::fs::read(&path)?;
        match Logs::read(&text).and_then(|logs| logs.audit()) {
            Ok(verdict) => println!("{path} {verdict}"),
            Err(error) => println!("{path} {error}"),
        }
    }
    Ok(())
}
