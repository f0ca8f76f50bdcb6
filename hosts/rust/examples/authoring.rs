//! An authoring tool in small: joint limits in a store, an animator who changes them, and a preview that must not jump while it plays.
//! What it prints stands in hosts/expected; hosts/c/authoring.c prints the same.
use vizzaluna::{Error, Report, Seen, Store, Transaction, LAST_ID};

const JOINTS: [&str; 4] = ["shoulder", "elbow", "wrist", "knee"];
const SHOULDER: u64 = 0;
const ELBOW: u64 = 1;
const WRIST: u64 = 2;
const KNEE: u64 = 3;
const CELLS: usize = 16;

// ---- a joint's limits in whole degrees, as one key

const KEY_HALF: u32 = 32;
const KEY_ZERO: i64 = 360;

fn limits(low: i64, high: i64) -> u64 {
    ((low + KEY_ZERO) as u64) << KEY_HALF | (high + KEY_ZERO) as u64
}

fn limits_text(key: u64) -> String {
    format!("{}..{}", (key >> KEY_HALF) as i64 - KEY_ZERO, (key & u64::from(u32::MAX)) as i64 - KEY_ZERO)
}

fn value_text(value: Seen) -> String {
    match value {
        Seen::NoVersion => "none".to_string(),
        Seen::NoKey => "deleted".to_string(),
        Seen::Key(key) => limits_text(key),
    }
}

// ---- what is told

/// One line of the table: what a transaction sees in every joint.
fn say_seen(who: &str, t: &Transaction) -> Result<(), Error> {
    print!("{:<16}", format!("{who} {}", t.id()));
    for joint in 0..JOINTS.len() as u64 {
        print!(" {:>10}", value_text(t.read(joint)?));
    }
    println!();
    Ok(())
}

fn say_joints() {
    print!("{:<16}", "");
    JOINTS.iter().for_each(|joint| print!(" {joint:>10}"));
    println!();
}

fn say_refused(who: &str, id: u64, what: &str, error: Error) {
    let joint = error.about().and_then(|row| JOINTS.get(row as usize)).expect("a refusal over a joint");
    println!("{who} {id} {what}: refused, {} {}: {joint}", error.number(), error.name());
}

fn say_vacuum(store: &Store, joint: u64) -> Result<(), Error> {
    let mut room = [Report::default(); CELLS];
    let gone = store.vacuum(joint, LAST_ID, &mut room)?;
    print!("vacuum of {}: {} given back", JOINTS[joint as usize], gone.reports.len());
    for report in gone.reports {
        print!(", cell {} with {}", report.cell, value_text(report.value()));
    }
    println!("; live: {}", value_text(gone.live));
    Ok(())
}

fn say_joints_with(who: &str, t: &Transaction, low: i64, high: i64) -> Result<(), Error> {
    let mut room = [0; JOINTS.len()];
    let found = t.lookup_all(limits(low, high), &mut room)?;
    print!("{who} {} looks for {}:", t.id(), limits_text(limits(low, high)));
    found.iter().for_each(|row| print!(" {}", JOINTS[*row as usize]));
    println!();
    Ok(())
}

fn commit(t: Transaction, what: &str) -> Result<(), Error> {
    let id = t.id();
    t.commit()?;
    println!("animator {id} commits {what}");
    Ok(())
}

// ---- the story

fn first_set(store: &Store) -> Result<(), Error> {
    let animator = store.begin()?;
    animator.write(SHOULDER, limits(-90, 90))?;
    animator.write(ELBOW, limits(0, 150))?;
    animator.write(WRIST, limits(-90, 90))?;
    animator.write(KNEE, limits(0, 130))?;
    commit(animator, "a set")
}

/// The preview holds its snapshot while an animator narrows the elbow and deletes the knee.
fn preview_holds(store: &Store) -> Result<(), Error> {
    let preview = store.begin()?;
    say_seen("preview", &preview)?;
    let animator = store.begin()?;
    animator.write(ELBOW, limits(0, 140))?;
    animator.delete(KNEE)?;
    commit(animator, "a narrower elbow and no knee")?;
    say_seen("preview", &preview)?;
    let reader = store.begin()?;
    say_seen("reader", &reader)?;
    say_joints_with("reader", &reader, 0, 150)?;
    say_joints_with("preview", &preview, 0, 150)?;
    drop(reader);
    say_vacuum(store, ELBOW)?;
    let refused = preview.write(ELBOW, limits(0, 145)).expect_err("the elbow was changed");
    say_refused("preview", preview.id(), "writes", refused);
    println!("preview {} ends", preview.id());
    drop(preview);
    say_vacuum(store, ELBOW)?;
    say_vacuum(store, KNEE)
}

/// Two animators: the second one's wrist rests on a shoulder that the first has changed meanwhile.
fn conflict(store: &Store) -> Result<(), Error> {
    let (late, early) = (store.begin()?, store.begin()?);
    say_seen("animator", &late)?;
    say_joints_with("animator", &late, -90, 90)?;
    early.write(SHOULDER, limits(-80, 80))?;
    commit(early, "a narrower shoulder")?;
    late.write(WRIST, limits(-45, 45))?;
    let refused = late.commit().expect_err("the shoulder was changed");
    say_refused("animator", refused.transaction.id(), "commits", refused.error);
    Ok(())
}

fn last_look(store: &Store) -> Result<(), Error> {
    let reader = store.begin()?;
    say_seen("reader", &reader)?;
    say_joints_with("reader", &reader, -90, 90)
}

fn main() -> Result<(), Error> {
    let store = Store::new(CELLS, JOINTS.len())?;
    say_joints();
    first_set(&store)?;
    preview_holds(&store)?;
    conflict(&store)?;
    last_look(&store)
}
