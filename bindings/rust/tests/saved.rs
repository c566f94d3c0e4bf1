//! Saving and restoring: the bytes hold everything, what is damaged is refused or sound, and the file is that of C and Python.
use conductor::{Conductor, RestoreRefusal, LAYOUT, SAVED};

const Q: &[u8] = b"plan=2\nagents=2\nname=east\nstops=4\ngo=1@0@0\ngo=6@1@1\ngo=5@4@3\ngo=2@5@1\nname=west\nstops=3\ngo=3@0@0\ngo=5@6@1\ngo=4@7@1\nend=plan\n";
const SITE: &[u8] = b"site=1\npairs=2\nnear=5,6\nnear=7,65535\nend=site\n";

fn flown() -> Conductor {
    let mut field = Conductor::new();
    field.read_site(SITE, Q).unwrap();
    field.turn_all(&[0, 1]).unwrap();
    field.grant(1).unwrap();
    field.arrive(1).unwrap();
    field.grant(1).unwrap();
    field
}

fn saved(field: &Conductor) -> [u8; SAVED] {
    let mut bytes = [0xA5; SAVED];
    field.save(&mut bytes);
    bytes
}

#[test]
fn the_bytes_hold_everything() {
    let field = flown();
    let mut restored = Conductor::restore(&saved(&field)).unwrap();
    assert!(restored == field);
    assert_eq!(format!("{restored:?}"), format!("{field:?}"));
    restored.arrive(1).unwrap();
    assert!(restored != field);
}

#[test]
fn what_is_not_whole_or_of_another_layout_is_refused() {
    let mut bytes = saved(&flown());
    assert_eq!(Conductor::restore(&bytes[1..]), Err(RestoreRefusal::Length));
    assert_eq!(Conductor::restore(&[]), Err(RestoreRefusal::Length));
    bytes[4] ^= 1;
    assert_eq!(Conductor::restore(&bytes), Err(RestoreRefusal::Length));
    bytes[0] += 1;
    assert_eq!(Conductor::restore(&bytes), Err(RestoreRefusal::Layout(LAYOUT + 1)));
    assert_eq!(Conductor::restore(&saved(&Conductor::new())), Err(RestoreRefusal::NotSound));
}

// Every third byte of the tables, with one bit changed: refused, or tables that are sound and are saved as they came.
#[test]
fn a_changed_bit_is_refused_or_sound() {
    let bytes = saved(&flown());
    let (mut refused, mut taken) = (0, 0);
    for at in (8..SAVED).step_by(3) {
        let mut damaged = bytes;
        damaged[at] ^= 1 << (at % 8);
        match Conductor::restore(&damaged) {
            Err(why) => {
                assert_eq!(why, RestoreRefusal::NotSound);
                refused += 1;
            }
            Ok(field) => {
                field.cost().unwrap();
                field.drones().count();
                taken += 1;
            }
        }
    }
    assert!(refused > 5_000, "{refused} refused, {taken} taken");
}

#[test]
fn debug_tells_names_and_progress() {
    let words = format!("{:?}", flown());
    assert!(words.contains("\"east\"") && words.contains("first_drone") && words.len() < 1500, "{words}");
    assert_eq!(format!("{:?}", Conductor::new()), "Conductor { form: 0, drones: [], dependencies: [], .. }");
}

// The file that C saved, where a test names it: the same flight by the same calls, byte for byte.
#[test]
fn the_file_of_c() {
    let Some(path) = std::env::var_os("CONDUCTOR_SAVED_BY_C") else { return };
    let mut field = Conductor::new();
    field.read(b"plan=1\nagents=2\nname=east\nstops=4\ngo=1@0\ngo=6@1\ngo=5@2\ngo=2@3\nname=west\nstops=3\ngo=3@0\ngo=5@4\ngo=4@5\nend=plan\n").unwrap();
    field.grant(0).unwrap();
    field.arrive(0).unwrap();
    assert!(std::fs::read(path).unwrap() == saved(&field));
}
