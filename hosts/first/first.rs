//! The script of README.md as a program in Rust: a subaction sets 7 and gives up, so 5 is in the account for good.

use argus_guardian::{Access, Error, Guardian};

fn main() -> Result<(), Error> {
    let mut guardian = Guardian::new()?;
    let account = guardian.named("account", "atomic_record[balance:int]")?;
    let mut top = guardian.topaction()?;
    top.create(&account, (5,))?;
    let sub = top.subaction()?;
    sub.set(&account, "balance", 7)?;
    sub.abort()?;
    top.commit()?;
    if let Some(content) = guardian.base(&account)? {
        println!("account {content}");
    }
    Ok(())
}
