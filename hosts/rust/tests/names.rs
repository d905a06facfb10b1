//! Objects by their names, which are in objects of the guardian.

use argus_guardian::{Access, Error, Guardian, Listing, Resumption, Shared, TakenEnd};
use std::thread;

const ACCOUNT: &str = "atomic_record[balance:int]";

/// The same guardian, made again of its journal.
fn made_again(guardian: &Guardian) -> Result<Guardian, Error> {
    let text = guardian.list(Listing::Journal)?;
    let mut resuming = Resumption::new()?;
    let taken = resuming.take(text.as_bytes());
    assert_eq!((taken.bytes, taken.end), (text.len(), TakenEnd::Whole));
    let Ok(opened) = resuming.into_guardian() else {
        panic!("the journal is whole");
    };
    Ok(opened.guardian)
}

#[test]
fn a_name_is_where_the_journal_is() -> Result<(), Error> {
    let mut guardian = Guardian::new()?;
    let account = guardian.named("account", ACCOUNT)?;
    let top = guardian.topaction()?;
    top.create(&account, (5,))?;
    top.commit()?;
    let mut again = made_again(&guardian)?;
    let found = again.find_named("account")?.expect("it has the name");
    assert_eq!((found.id(), found.name()), (account.id(), Some("account")));
    assert_eq!(found.shape(), ACCOUNT);
    let top = again.topaction()?;
    assert_eq!(top.get::<i64>(&found, "balance")?, 5);
    Ok(())
}

#[test]
fn a_catalogue_has_sixty_four_names() -> Result<(), Error> {
    let guardian = Guardian::new()?;
    for number in 0..65 {
        guardian.named(&format!("seat {number}"), ACCOUNT)?;
    }
    // The objects themselves, and two catalogues.
    assert_eq!(guardian.objects(), 67);
    let again = made_again(&guardian)?;
    for number in 0..65 {
        let name = format!("seat {number}");
        assert_eq!(
            again.named(&name, ACCOUNT)?,
            guardian.named(&name, ACCOUNT)?
        );
    }
    again.named("seat 65", ACCOUNT)?;
    assert_eq!(again.objects(), 68);
    Ok(())
}

#[test]
fn a_name_of_another_shape_is_refused() -> Result<(), Error> {
    let guardian = Guardian::new()?;
    guardian.named("account", ACCOUNT)?;
    let entries = guardian.entries();
    let error = guardian
        .named("account", "atomic_array[int]")
        .expect_err("it is a record");
    assert!(matches!(error, Error::OtherShape { .. }), "{error}");
    assert_eq!(guardian.entries(), entries);
    assert!(matches!(
        guardian.named("b", "atomic_array[]"),
        Err(Error::BadShape(_))
    ));
    assert_eq!(guardian.find_named("b")?, None);
    Ok(())
}

#[test]
fn a_name_that_could_not_be_given_can_be_given_later() -> Result<(), Error> {
    let mut guardian = Guardian::new()?;
    guardian.named("first", ACCOUNT)?;
    let catalogue = argus_guardian::ObjId::numbered(1);
    let top = guardian.topaction()?;
    top.lock(catalogue)?;
    assert!(
        top.guardian()
            .named("second", ACCOUNT)
            .expect_err("it is locked")
            .is_conflict()
    );
    assert_eq!(top.guardian().find_named("second")?, None);
    top.abort()?;
    assert_eq!(guardian.named("second", ACCOUNT)?.name(), Some("second"));
    assert!(guardian.live(0).is_none());
    Ok(())
}

#[test]
fn threads_get_the_same_object() -> Result<(), Error> {
    let shared = Shared::from(Guardian::new()?);
    let found = thread::scope(|scope| {
        let threads = [(); 4].map(|()| scope.spawn(|| shared.named("account", ACCOUNT)));
        threads.map(|it| it.join().expect("no panic"))
    });
    for object in found {
        assert_eq!(object?.id().number(), 0);
    }
    assert_eq!(shared.with(Guardian::objects), 2);
    Ok(())
}
