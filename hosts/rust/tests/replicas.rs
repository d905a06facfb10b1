//! Guardians that are given the same calls in the same order: they answer the same.

use argus_guardian::{
    ActionId, Call, Change, Content, Error, Guardian, Listing, ObjId, Query, Reply, Value,
};

const CALLS: u32 = 3000;
const OBJECTS: u32 = 4;

/// Numbers as if by chance, the same at each run.
struct Draws(u64);

impl Draws {
    fn below(&mut self, count: u32) -> u32 {
        let product = self.0.wrapping_mul(6_364_136_223_846_793_005);
        self.0 = product.wrapping_add(1_442_695_040_888_963_407);
        u32::try_from(self.0 >> 33).expect("31 bits") % count
    }

    /// A call of any kind, by one of the newest actions, and mostly one that may be refused.
    fn call(&mut self, actions: u32) -> Call {
        let action = ActionId::numbered((actions + 1).saturating_sub(self.below(8)));
        let object = ObjId::numbered(self.below(OBJECTS + 1));
        let number = i64::from(self.below(10));
        match self.below(16) {
            0 => Call::BeginTop,
            1 | 2 => Call::BeginSub(action),
            3 => Call::BeginNested(action),
            4 | 5 => Call::Commit(action),
            6 => Call::Abort(action),
            7 => Call::AbortOthers(action),
            8 => Call::TestRead(action, object),
            9 => Call::TestWrite(action, object),
            10 => Call::Ask(action, object, Query::Whole),
            11 => Call::Ask(action, object, Query::Fetch(number)),
            12 => Call::Alter(action, object, Change::Remh),
            13 => Call::Alter(action, object, Change::Create(empty())),
            _ => Call::Alter(action, object, Change::Addh(Value::Int(number))),
        }
    }
}

fn empty() -> Content {
    Content::Array {
        low: 1,
        items: Vec::new(),
    }
}

/// A guardian of some arrays, and what it answers to each call of the log.
fn replica(log: &[Call]) -> Result<(Guardian, Vec<Reply>), Error> {
    let guardian = Guardian::new()?;
    let replies: Result<Vec<Reply>, Error> = log.iter().map(|call| guardian.call(call)).collect();
    Ok((guardian, replies?))
}

#[test]
fn replicas_answer_the_same() -> Result<(), Error> {
    let leader = Guardian::new()?;
    let mut draws = Draws(1);
    let mut log = vec![Call::Declare("atomic_array[int]".to_owned()); OBJECTS as usize];
    let mut replies = Vec::new();
    for call in &log {
        replies.push(leader.call(call)?);
    }
    for _ in 0..CALLS {
        let call = draws.call(leader.actions());
        replies.push(leader.call(&call)?);
        log.push(call);
    }
    let refused = |reply: &&Reply| matches!(reply, Reply::Refused(_));
    let refusals = replies.iter().filter(refused).count();
    assert!(
        (300..2700).contains(&refusals),
        "{refusals} refusals: too few or too many"
    );
    let (follower, told) = replica(&log)?;
    assert_eq!(told, replies);
    for listing in [Listing::Bases, Listing::Stacks, Listing::Journal] {
        assert_eq!(follower.list(listing)?, leader.list(listing)?);
    }
    Ok(())
}

#[test]
fn the_journal_tells_calls_and_replies() -> Result<(), Error> {
    let mut draws = Draws(2);
    let guardian = Guardian::new()?;
    guardian.declare("atomic_array[int]")?;
    for number in 1..500 {
        let call = draws.call(guardian.actions());
        let reply = guardian.call(&call)?;
        assert_eq!(
            guardian.entry(number)?,
            format!("{number} {call} -> {reply}")
        );
    }
    Ok(())
}

#[test]
fn an_audit_finds_what_is_there() -> Result<(), Error> {
    let mut draws = Draws(3);
    let guardian = Guardian::new()?;
    guardian.declare("atomic_array[int]")?;
    for _ in 0..500 {
        let call = draws.call(guardian.actions());
        let _reply = guardian.call(&call)?;
    }
    let audit = guardian.list(Listing::Audit)?;
    for object in 0..guardian.objects() {
        let base = guardian.base(ObjId::numbered(object))?;
        let told = base.map_or_else(|| "absent".to_owned(), |content| content.to_string());
        assert!(audit.contains(&format!("o{object} base {told}\n")));
    }
    assert!(audit.ends_with(&format!("entries {}\n", guardian.entries())));
    Ok(())
}
