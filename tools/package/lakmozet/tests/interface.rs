//! The interface, played by README's rope.
use lakmozet::{
    cloth_triangles, Cloth, Link, LinkKind, LinkSettings, Mesh, MeshError, MeshSettings, NoRoom,
    NoSlot, OpenError, Position, Refusal, Scene, SceneError,
};
use std::error::Error;

const ROPE: &str = "gravity = [0, -179, 0]
passes = 8
pins = [0]
[[rope]]
origin = [0, 131072, 0]
spacing = [6554, 0, 0]
count = 4
";

fn rope(slots: usize) -> Cloth {
    Cloth::open(&Scene::read(ROPE).unwrap(), slots).unwrap()
}

#[test]
fn a_rope_hangs_is_cut_and_goes_back() {
    let mut cloth = rope(2);
    cloth.step(60).unwrap();
    cloth.save(1).unwrap();
    let before = cloth.sums();
    assert_eq!(cloth.positions().last(), Some([13127, 116473, 0].into()));
    cloth.cut(0).unwrap();
    assert_eq!(cloth.cut(0), Err(Refusal::LinkGone));
    cloth.step(30).unwrap();
    assert_eq!(cloth.positions().nth(1), Some([-12124, 115450, 0].into()));
    assert_eq!(cloth.gone_since(1).unwrap().collect::<Vec<_>>(), [0]);
    cloth.restore(1).unwrap();
    assert_eq!(cloth.sums(), before);
    assert_eq!(cloth.gone_since(1).unwrap().len(), 0);
}

#[test]
fn links_have_ends_and_go() {
    let mut cloth = rope(0);
    cloth.cut(1).unwrap();
    let links: Vec<_> = cloth.links().map(|it| (it.a, it.b, it.live)).collect();
    assert_eq!(
        links,
        [
            (0, 1, true),
            (1, 2, false),
            (2, 3, true),
            (0, 2, true),
            (1, 3, true)
        ]
    );
}

#[test]
fn links_have_lengths_and_are_found_by_their_ends() {
    let scene = "[[particle]]\nat = [0, 0, 0]\n[[particle]]\nat = [100, 0, 0]\n[[particle]]\nat = [0, 300, 0]\n\
                 [[link]]\na = 0\nb = 1\nrest = 90\nstiffness = 128\ntear = 400\n[[link]]\na = 2\nb = 0\n";
    let mut cloth = Cloth::open(&Scene::read(scene).unwrap(), 0).unwrap();
    let links: Vec<_> = cloth.links().collect();
    assert_eq!((links[0].rest_length, links[1].rest_length), (90, 300));
    assert_eq!((links[0].stiffness, links[1].stiffness), (128, 256));
    assert_eq!(
        (links[0].tear_length, links[1].tear_length),
        (Some(400), None)
    );
    assert_eq!(links[1].kind, LinkKind::Plain);
    assert_eq!(cloth.link_between(0, 2), Some(1));
    assert_eq!(cloth.link_between(1, 2), None);
    assert_eq!(cloth.link_between(0, usize::MAX), None);
    assert_eq!(cloth.cut_many(&[1, 1, usize::MAX]), 2);
    assert_eq!(
        cloth.link_between(2, 0),
        Some(1),
        "also where it was let go"
    );
    assert!(cloth.links().map(|it| it.live).eq([true, false]));
}

#[test]
fn held_particles_are_told() {
    let mut cloth = rope(0);
    cloth.pin(2).unwrap();
    cloth.unpin(0).unwrap();
    assert!(cloth.held().eq([false, false, true, false]));
    let mut few = [7; 3];
    assert_eq!(cloth.held_into(&mut few), 3);
    assert_eq!(few, [0, 0, 1]);
}

#[test]
fn meshes_have_links_of_three_kinds() {
    let cloth = "[[cloth]]\norigin = [0, 0, 0]\nacross = [10, 0, 0]\ndown = [0, 0, 10]\nrows = 3\ncolumns = 2\n";
    let cloth = Cloth::open(&Scene::read(cloth).unwrap(), 0).unwrap();
    let of = |kind| cloth.links().filter(|it| it.kind == kind).count();
    let kinds = [
        LinkKind::Stretch,
        LinkKind::Shear,
        LinkKind::Bend,
        LinkKind::Plain,
    ];
    assert_eq!(kinds.map(of), [7, 4, 2, 0]);
    assert_eq!((cloth.link_count(), cloth.live_links()), (13, 13));
}

#[test]
fn triangles_of_a_cloth_have_its_particles() {
    let triangles: Vec<_> = cloth_triangles(100, 2, 3).collect();
    assert_eq!(
        triangles,
        [
            [100, 103, 101],
            [101, 103, 104],
            [101, 104, 102],
            [102, 104, 105]
        ]
    );
    assert_eq!(cloth_triangles(0, 1, 9).count(), 0);
}

#[test]
fn meshes_become_cloth_behind_the_scene() {
    let strip = [[0, 0, 0], [9, 0, 0], [0, 0, 9], [9, 0, 9], [0, 9, 0]].map(Position::from);
    let mesh = Mesh {
        vertices: &strip,
        sizes: &[3, 3],
        corners: &[0, 1, 2, 1, 3, 2],
    };
    let scene = || Scene::read(ROPE).unwrap();
    let stiff = MeshSettings::stiff();
    let cloth = Cloth::open(&scene().with_mesh(&mesh, &stiff).unwrap(), 0).unwrap();
    assert_eq!((cloth.particles(), cloth.link_count()), (9, 10));
    assert_eq!(cloth.positions().nth(7), Some(strip[3]));
    // the side that both faces have, and one that the second has alone
    assert!(cloth.link_between(5, 6).is_some() && cloth.link_between(6, 7).is_some());
    assert_ne!(cloth.scene_name(), rope(0).scene_name());
    let bent = MeshSettings {
        bend: Some(LinkSettings {
            stiffness: 40,
            tear: 0,
        }),
        ..stiff
    };
    let cloth = Cloth::open(&scene().with_mesh(&mesh, &bent).unwrap(), 0).unwrap();
    // the rope has a bend link of its own
    let is_across = |it: &Link| it.kind == LinkKind::Bend && it.stiffness == 40;
    let across = cloth.links().filter(is_across).count();
    assert_eq!((across, cloth.link_count()), (1, 11));

    let refused = |mesh: Mesh, settings| scene().with_mesh(&mesh, settings).unwrap_err();
    let corners = &mesh.corners[1..];
    assert_eq!(
        refused(Mesh { corners, ..mesh }, &stiff),
        MeshError::BadCount
    );
    let corners = &[0, 1, 2, 1, 5, 2];
    let why = refused(Mesh { corners, ..mesh }, &stiff);
    assert_eq!(why.to_string(), "BadFace face 1");
    let vertices = &[Position::from([1 << 30, 0, 0]); 5];
    let why = refused(Mesh { vertices, ..mesh }, &stiff);
    assert_eq!(why.to_string(), "OutOfRange vertex 0");
    let weightless = MeshSettings { weight: 0, ..stiff };
    assert_eq!(refused(mesh, &weightless), MeshError::BadSettings);
    let hub: Vec<_> = (1..=33).flat_map(|it| [0, it, it + 33]).collect();
    let star = Mesh {
        vertices: &[Position::from([0; 3]); 67],
        sizes: &[3; 33],
        corners: &hub,
    };
    let why = refused(star, &stiff);
    assert_eq!(why, MeshError::TooManyAtParticle { vertex: 0 });
}

// README's rope after 60 steps, whose first link is cut
fn cut_rope(slots: usize) -> Cloth {
    let mut cloth = rope(slots);
    cloth.step(60).unwrap();
    cloth.cut(0).unwrap();
    cloth
}

#[test]
fn worlds_go_over_as_bytes() {
    let mut here = cut_rope(0);
    let state = here.state();
    assert_eq!(state.len(), 420 + 49 * 4 + 5);
    let mut there = rope(1);
    there.restore_state(&state).unwrap();
    for cloth in [&mut here, &mut there] {
        cloth.step(30).unwrap();
        assert_eq!(cloth.positions().nth(1), Some([-12124, 115450, 0].into()));
    }
    assert_eq!(there.state(), here.state());
    assert_eq!(there.ledger(), here.ledger());
    assert_eq!(there.digest(), here.digest());
    assert_ne!(there.state(), state);
    // slots stay as they were
    there.restore(0).unwrap();
    assert_eq!(there.digest(), rope(0).digest());
}

#[test]
fn a_digest_is_the_sha256_of_the_state() {
    // as another program computed them
    assert_eq!(
        hex(&rope(0).scene_name()),
        "cf4e0e96fb777b957c5b505c1a30cf65aa4f0edd4a4c402fefb44d86ff0ca983"
    );
    assert_eq!(
        hex(&cut_rope(0).digest()),
        "0cfe559791155cfde3261f77020fc794fb8588a88106d7ea134d37e525d91abf"
    );
}

fn hex(bytes: &[u8]) -> String {
    bytes.iter().map(|byte| format!("{byte:02x}")).collect()
}

#[test]
fn no_bytes_but_states_are_taken() {
    let mut cloth = cut_rope(0);
    let (state, before) = (cloth.state(), cloth.digest());
    let (mut taken, mut refused) = (0, 0);
    for (at, bit) in (0..state.len()).flat_map(|at| [(at, 1), (at, 0x80)]) {
        let mut changed = state.clone();
        changed[at] ^= bit;
        match cloth.restore_state(&changed) {
            Ok(()) => {
                taken += 1;
                assert_eq!(cloth.state(), changed);
                cloth.restore_state(&state).unwrap();
            }
            Err(why) => {
                refused += 1;
                assert!(why.offset <= state.len() as u64);
                assert_eq!(cloth.digest(), before);
            }
        }
    }
    assert!(taken >= 8 && refused >= 200, "{taken} {refused}");
    for short in 0..state.len() {
        let why = cloth.restore_state(&state[..short]).unwrap_err();
        assert_eq!(why.offset, short as u64);
    }
    let longer = [&state[..], &[0]].concat();
    let why = cloth.restore_state(&longer).unwrap_err();
    assert_eq!(why.to_string(), format!("NoState offset {}", state.len()));
    assert_eq!(cloth.digest(), before);
}

#[test]
fn a_state_wants_room() {
    let cloth = rope(0);
    let mut room = vec![7; cloth.state_size() + 1];
    let short = cloth.state_size() - 1;
    assert_eq!(cloth.state_into(&mut room[..short]), Err(NoRoom));
    assert!(room.iter().all(|&it| it == 7));
    assert_eq!(cloth.state_into(&mut room), Ok(cloth.state_size()));
    assert_eq!(room, [&cloth.state()[..], &[7]].concat());
    assert_eq!(NoRoom.to_string(), "NoRoom");
}

#[test]
fn the_ledger_balances() {
    let mut cloth = rope(0);
    cloth.step(60).unwrap();
    cloth.cut_many(&[0, 3]);
    cloth.step(7).unwrap();
    let ledger = cloth.ledger();
    let t = ledger.totals;
    // the held end pulls, and links between free ends of one weight take from one what they give to the other
    assert!(t.gravity[1] < 0 && t.pin[1] > 0 && t.link == [0; 3]);
    for axis in 0..3 {
        let moves = [t.gravity, t.damping, t.link, t.contact, t.pin, t.shape];
        let moved: i128 = moves.iter().map(|it| it[axis]).sum();
        assert_eq!(ledger.momentum[axis], ledger.opening[axis] + moved);
    }
}

#[test]
fn positions_are_copied_as_far_as_there_is_room() {
    let cloth = rope(0);
    let mut few = [Position::from([7, 7, 7]); 2];
    assert_eq!(cloth.positions_into(&mut few), 2);
    assert_eq!(few[1], [6554, 131072, 0].into());
    let mut many = [Position::from([7, 7, 7]); 6];
    assert_eq!(cloth.positions_before_into(&mut many), 4);
    assert_eq!(many[3], [3 * 6554, 131072, 0].into());
    assert_eq!(many[4], [7, 7, 7].into());
}

#[test]
fn refusals_have_the_names_that_the_program_prints() {
    let mut cloth = rope(0);
    assert_eq!(cloth.step(0).unwrap_err().to_string(), "BadCount");
    assert_eq!(cloth.pin(0).unwrap_err().to_string(), "Held");
    assert_eq!(cloth.unpin(9).unwrap_err().to_string(), "NoParticle");
    let far = cloth.move_to(0, [1 << 30, 0, 0]).unwrap_err();
    assert_eq!(far.to_string(), "OutOfRange");
    assert_eq!(
        cloth.set_gravity([i64::MIN, 0, 0]),
        Err(Refusal::OutOfRange)
    );
    assert_eq!(cloth.gravity(), [0, -179, 0]);
    cloth.move_to(0, [1 << 29, 0, 0]).unwrap();
    cloth.set_gravity([0, 1 << 29, 0]).unwrap();
    let why = cloth.step(5).unwrap_err();
    assert_eq!(
        why.to_string(),
        "LeavesRange step 1 phase predict element 1"
    );
    assert_eq!(cloth.steps(), 0);
}

#[test]
fn scenes_and_slots_are_refused_by_name() {
    let why: Box<dyn Error> = Scene::read("passes").unwrap_err().into();
    assert_eq!(why.to_string(), "SceneNotToml offset 6");
    assert_eq!(
        "passes = 1\nwidth = 2"
            .parse::<Scene>()
            .unwrap_err()
            .to_string(),
        "SceneRefused 2 UnknownKey scene 0 -"
    );
    assert!(matches!(
        Scene::read("="),
        Err(SceneError::NotToml { offset: 0, .. })
    ));
    let scene = Scene::read(ROPE).unwrap();
    assert_eq!((scene.particles(), scene.links()), (4, 5));
    assert_eq!(Cloth::open(&scene, 17).err(), Some(OpenError::TooManySlots));
    let mut cloth = rope(16);
    assert_eq!(cloth.save(16), Err(NoSlot));
    assert_eq!(cloth.restore(usize::MAX), Err(NoSlot));
    assert_eq!(cloth.save(15), Ok(()));
}

#[test]
fn goes_to_other_threads() {
    fn goes<T: Send + Sync + 'static>() {}
    goes::<Cloth>();
    goes::<Scene>();
}
