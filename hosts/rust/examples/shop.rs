//! A shop: six customers buy a seat each, at once, of four. One card is declined.

use argus_guardian::{Access, Error, Guardian, Object, Shared};
use std::thread;

/// Sells the first free seat. If the card is declined, nothing is left of the sale.
fn sell(shop: &Shared, seats: &[Object], customer: &str, is_declined: bool) -> Result<(), Error> {
    shop.run(|top| {
        for seat in seats {
            top.lock(seat)?;
            if top.get::<String>(seat, "holder")?.is_empty() {
                let sale = top.subaction()?;
                sale.set(seat, "holder", customer)?;
                if is_declined {
                    return sale.abort();
                }
                return sale.commit();
            }
        }
        Ok(())
    })
}

fn main() -> Result<(), Error> {
    let shop = &Shared::from(Guardian::new()?);
    let seats = ["1a", "1b", "2a", "2b"].map(|it| shop.named(it, "atomic_record[holder:text]"));
    let seats = &seats.into_iter().collect::<Result<Vec<_>, _>>()?;
    shop.run(|top| seats.iter().try_for_each(|it| top.create(it, ("",))))?;
    thread::scope(|scope| {
        for name in ["ann", "bob", "cid", "dot", "eve", "fay"] {
            scope.spawn(move || sell(shop, seats, name, name == "bob").expect("sold, or not"));
        }
    });
    for seat in seats {
        let holder: String = shop.run(|top| top.get(seat, "holder"))?;
        assert!(!holder.is_empty() && holder != "bob");
    }
    println!("{} seats are sold", seats.len());
    Ok(())
}
