//! Worked examples, run through both implementations and compared with what 01, R-1, R-2 and R-4 of
//! 02 and Appendix B say of them.

use crate::matching::Keys;
use crate::tables::{ensure, Compared, Comparison, LentTexts};
use glykorant_reference::generate::events::{EventList, RecordCall};
use glykorant_reference::keyboard::MAP_LENGTH;
use glykorant_reference::modifiers::{BUTTON1, BUTTON2, CTRL, LOCK, MOD1, MOD2, MOD4, SHIFT};
use glykorant_reference::{compile, write};

/// A text with its number and place, and the canonical text where it is accepted.
type Text = (&'static str, u8, usize, &'static str);

const OF_01: &[Text] = &[
    // "Whole example".
    (
        "#override\ns c<Key>a : go(now,) stop()\n<Btn1Up>(2): ok()",
        0,
        0,
        "Ctrl Shift<KeyPress>a:go(\"now\",\"\") stop()\n<ButtonRelease>(2)Button1:ok()\n",
    ),
    // "`f()` has no parameter, `f(\"\")` one, `f(,)` two empty ones."
    ("<Map>:f()", 0, 0, "<MapNotify>:f()\n"),
    ("<Map>:f(\"\")", 0, 0, "<MapNotify>:f(\"\")\n"),
    ("<Map>:f(,)", 0, 0, "<MapNotify>:f(\"\",\"\")\n"),
    // "Not built yet".
    ("<Key>(2+)a:x()", 10, 0, ""),
    ("<Prop>WM_NAME:", 10, 0, ""),
    // "`#replace`, `#override` or `#augment` may stand as the whole first line".
    ("#replace\n<Map>:", 0, 0, "<MapNotify>:\n"),
    ("#augment", 0, 0, ""),
    (" #augment", 4, 0, ""),
    ("<Map>:\n#augment", 4, 7, ""),
    // "Names are case-sensitive."
    ("<map>:", 5, 0, ""),
    ("ctrl<Key>:", 5, 0, ""),
    // What type names add or fix.
    ("<Ctrl>a:", 0, 0, "Ctrl<KeyPress>a:\n"),
    ("<Shift>a:", 0, 0, "Shift<KeyPress>a:\n"),
    ("<Btn1Motion>:", 0, 0, "Button1<MotionNotify>:\n"),
    ("<BtnMotion>:", 0, 0, "<BtnMotion>:\n"),
    ("Button2<BtnMotion>:", 0, 0, "Button2<MotionNotify>:\n"),
    ("<Btn1Down>:", 0, 0, "<ButtonPress>Button1:\n"),
    ("<Btn1Down>Button1:", 5, 0, ""),
    // Details.
    ("<Key>7,<Key>07:", 0, 0, "<KeyPress>7,<KeyPress>0x7:\n"),
    ("<Key>0x1FFFFFFF:", 0, 0, "<KeyPress>0x1fffffff:\n"),
    ("<Key>0x20000000:", 6, 0, ""),
    ("<Key>09:", 5, 0, ""),
    (
        "<Enter>3,<Enter>4:",
        0,
        0,
        "<EnterNotify>WhileGrabbed,<EnterNotify>4:\n",
    ),
    ("<Mapping>256:", 6, 0, ""),
    // "Count 1 reads as no count."
    ("<Key>(1)a:", 0, 0, "<KeyPress>a:\n"),
    ("<Key>(0)a:x()", 6, 0, ""),
    // Modifier tests.
    ("Shift ~Shift<Key>a:x()", 8, 0, ""),
    ("None<Ctrl>a:x()", 8, 0, ""),
    ("!<BtnMotion>:", 8, 0, ""),
    ("Any<FocusIn>:", 7, 0, ""),
    (":<Shift>a:", 9, 0, ""),
    ("!:Ctrl<Key>a:", 0, 0, "!:Ctrl<KeyPress>a:\n"),
    // The place is the start of the line, the byte for 3.
    ("<Map>:\n\n  <Mop>:", 5, 8, ""),
    ("<Map>:f(\r)", 3, 8, ""),
    ("", 0, 0, ""),
];

const OF_02: &[Text] = &[
    ("Meta<Key>a:", 0, 0, "Meta<KeyPress>a:\n"),
    ("<Meta>a:", 0, 0, "Meta<KeyPress>a:\n"),
    ("@x<Key>a:", 0, 0, "@0x78<KeyPress>a:\n"),
    ("\"$a\":", 0, 0, "Meta<KeyPress>a:\n"),
    ("None<Meta>a:", 0, 0, "!Meta<KeyPress>a:\n"),
    ("Any<Meta>a:", 0, 0, "Meta<KeyPress>a:\n"),
    // "The writer puts the names after Button5."
    (
        "~m @0x100 m ~@b a @a ~Shift Button5<Key>:",
        0,
        0,
        "~Shift Button5 Meta ~Meta Alt @0x61 ~@0x62 @0x100<KeyPress>:\n",
    ),
    (
        "su a h m<Key>a:",
        0,
        0,
        "Meta Alt Hyper Super<KeyPress>a:\n",
    ),
    // "Over four different keysyms in an event is 11."
    (
        "@a ~@a @97 @b @c @d Meta Alt<Key>e:",
        0,
        0,
        "Meta Alt @0x61 ~@0x61 @0x62 @0x63 @0x64<KeyPress>e:\n",
    ),
    ("<Map>:\n@a @b @c @d ~@e<Key>a:", 11, 7, ""),
    ("@a @b @c @d @e<Key>a,<Foo>:", 5, 0, ""),
    // "After `@` the run in 01 is read as a key detail is."
    ("@5 @10<Key>:", 0, 0, "@0xa @0x35<KeyPress>:\n"),
    ("@Meta_L<Key>:", 5, 0, ""),
    ("@0x20000000<Prop>foo:", 6, 0, ""),
    // "8 as if these names weren't there."
    ("!Meta<Ctrl>a:", 8, 0, ""),
    ("Meta ~Meta<Key>a:", 0, 0, "Meta ~Meta<KeyPress>a:\n"),
    ("Meta<Expose>:", 7, 0, ""),
    ("Meta<Prop>foo:", 10, 0, ""),
    (":Meta Shift<Key>a:", 9, 0, ""),
    // "A name not found is still 5."
    (
        "<Key>Eth,<Key>quoteleft:",
        0,
        0,
        "<KeyPress>ETH,<KeyPress>grave:\n",
    ),
    ("<Key>guillemetleft:", 5, 0, ""),
    ("<Key>Linefeed:", 5, 0, ""),
    ("<Key>XK_a:", 5, 0, ""),
    // "The writer gives the name where there is one .. and hexadecimal otherwise."
    (
        "<Key>0xff0d,<Key>0xffc9,<Key>0x35:",
        0,
        0,
        "<KeyPress>Return,<KeyPress>F12,<KeyPress>5:\n",
    ),
    (
        "<Key>0x7f,<Key>00,<Key>0x100:",
        0,
        0,
        "<KeyPress>0x7f,<KeyPress>0x0,<KeyPress>0x100:\n",
    ),
    ("@eacute<Key>eacute:", 0, 0, "@0xe9<KeyPress>eacute:\n"),
];

const OF_APPENDIX_B: &[Text] = &[
    (
        "<Btn1Down>:\tDoSomething()\n\t<Btn2Down>:\tDoSomethingElse()",
        0,
        0,
        "<ButtonPress>Button1:DoSomething()\n<ButtonPress>Button2:DoSomethingElse()\n",
    ),
    (
        "Shift <Btn1Down> : twas()\n<Btn1Down> : brillig()",
        0,
        0,
        "Shift<ButtonPress>Button1:twas()\n<ButtonPress>Button1:brillig()\n",
    ),
    (
        "Shift<Btn1Up>(2) : and()",
        0,
        0,
        "Shift<ButtonRelease>(2)Button1:and()\n",
    ),
    (
        "Shift<Btn1Down>(2) : the()",
        0,
        0,
        "Shift<ButtonPress>(2)Button1:the()\n",
    ),
    (
        "<Btn1Down>,<Btn1Up> : slithy()",
        0,
        0,
        "<ButtonPress>Button1,<ButtonRelease>Button1:slithy()\n",
    ),
    (
        "<Btn1Down>,<Btn1Up> : toves()\n<Btn1Up> :  did()",
        0,
        0,
        "<ButtonPress>Button1,<ButtonRelease>Button1:toves()\n<ButtonRelease>Button1:did()\n",
    ),
    (
        "Shift Meta <Btn1Down>, Shift Meta<Btn1Up>: gyre()",
        0,
        0,
        "Shift Meta<ButtonPress>Button1,Shift Meta<ButtonRelease>Button1:gyre()\n",
    ),
    ("Shift <Btn1Up>(2+) : and()", 10, 0, ""),
    ("<Enter> : gimble()", 0, 0, "<EnterNotify>:gimble()\n"),
    ("None <Enter> : in()", 0, 0, "!<EnterNotify>:in()\n"),
    (
        "Button1 ~Button2 <Enter> : the()",
        0,
        0,
        "Button1 ~Button2<EnterNotify>:the()\n",
    ),
    (
        "! Button1 Button2 <Enter> : wabe()",
        0,
        0,
        "!Button1 Button2<EnterNotify>:wabe()\n",
    ),
    ("<Message>WM_PROTOCOLS:", 10, 0, ""),
    (":Shift<Key>A:", 9, 0, ""),
    (
        ":<Key>a:\n:<Key>A:\n<Key>0:\n<Key>!:",
        0,
        0,
        ":<KeyPress>a:\n:<KeyPress>A:\n<KeyPress>0:\n<KeyPress>exclam:\n",
    ),
];

const KEYCODE: u8 = 38;
const KEY: u8 = 2;
const PRESS: u8 = 4;
const RELEASE: u8 = 5;
const MOTION: u8 = 6;
const ENTER: u8 = 7;
/// No event type has this code.
const NO_CODE: u8 = 35;

/// The details of a motion.
const NORMAL: u8 = 0;
const HINT: u8 = 1;

/// Code, detail, time and state of an event, and what is selected at it.
type Step = (u8, u8, u32, u16, Option<usize>);

/// A text, a multi-click time and a list of calls. The keyboard has one key, (a, A), and no
/// modifiers.
type List = (&'static str, u32, &'static [Step]);

const P: &str = "<Btn1Down>,<Btn1Up>:toves()\n<Btn1Up>:did()";
const DOUBLE: &str = "<Btn1Down>(2):g()";

const LISTS: &[List] = &[
    (
        P,
        100,
        &[(PRESS, 1, 0, 0, None), (RELEASE, 1, 0, 0, Some(0))],
    ),
    // "Taking `did()` inside a click."
    (
        P,
        100,
        &[
            (PRESS, 1, 0, 0, None),
            (RELEASE, 2, 0, 0, None),
            (RELEASE, 1, 0, 0, Some(1)),
            (PRESS, 1, 0, 0, None),
            (RELEASE, 1, 0, 0, Some(0)),
            (RELEASE, 1, 0, 0, Some(1)),
        ],
    ),
    // "Using a pair's second click again in the next pair."
    (
        DOUBLE,
        100,
        &[
            (PRESS, 1, 0, 0, None),
            (RELEASE, 1, 1, 0, None),
            (PRESS, 1, 2, 0, Some(0)),
            (RELEASE, 1, 3, 0, None),
            (PRESS, 1, 4, 0, None),
            (RELEASE, 1, 5, 0, None),
            (PRESS, 1, 6, 0, Some(0)),
        ],
    ),
    // "Times 4294967290 and 94: no pair with limit 100, a pair with 101".
    (
        DOUBLE,
        100,
        &[
            (PRESS, 1, 4_294_967_290, 0, None),
            (RELEASE, 1, 0, 0, None),
            (PRESS, 1, 94, 0, None),
        ],
    ),
    (
        DOUBLE,
        101,
        &[
            (PRESS, 1, 4_294_967_290, 0, None),
            (RELEASE, 1, 0, 0, None),
            (PRESS, 1, 94, 0, Some(0)),
        ],
    ),
    // "Trying only the event's own Lock for `<Key>a`."
    (
        "<Key>a:x()",
        100,
        &[
            (KEY, KEYCODE, 0, 0, Some(0)),
            (KEY, KEYCODE, 0, LOCK, Some(0)),
            (KEY, KEYCODE, 0, SHIFT | LOCK, Some(0)),
            (KEY, KEYCODE + 1, 0, 0, None),
        ],
    ),
    // "`:<Key>a` is distinct from `:<Key>A`"; "`<Key>A` and `<Key>a` are equivalent".
    (
        ":<Key>a:x()\n:<Key>A:y()",
        100,
        &[
            (KEY, KEYCODE, 0, 0, Some(0)),
            (KEY, KEYCODE, 0, SHIFT, Some(1)),
            (KEY, KEYCODE, 0, LOCK, Some(1)),
        ],
    ),
    (
        "<Key>A:x()",
        100,
        &[
            (KEY, KEYCODE, 0, 0, Some(0)),
            (KEY, KEYCODE, 0, SHIFT, Some(0)),
        ],
    ),
    // "Always put more specific events in the table before more general ones".
    (
        "Shift <Btn1Down> : twas()\n<Btn1Down> : brillig()",
        100,
        &[
            (PRESS, 1, 0, SHIFT, Some(0)),
            (PRESS, 1, 0, 0, Some(1)),
            (PRESS, 1, 0, CTRL | SHIFT, Some(0)),
        ],
    ),
    // A double click on Button 1 Up with Shift.
    (
        "Shift<Btn1Up>(2) : and()",
        100,
        &[
            (PRESS, 1, 0, SHIFT, None),
            (RELEASE, 1, 10, SHIFT, None),
            (PRESS, 1, 20, SHIFT, None),
            (RELEASE, 1, 30, SHIFT, Some(0)),
        ],
    ),
    // "Mouse motion is always discarded .. where no motion event is specified".
    (
        "<Btn1Down>,<Btn1Up> : slithy()",
        100,
        &[
            (PRESS, 1, 0, 0, None),
            (MOTION, 0, 5, BUTTON1, None),
            (RELEASE, 1, 10, 0, Some(0)),
        ],
    ),
    (
        "None <Enter> : in()\nButton1 ~Button2 <Enter> : the()\n! Button1 Button2 <Enter> : wabe()",
        100,
        &[
            (ENTER, 0, 0, 0, Some(0)),
            (ENTER, 0, 0, BUTTON1, Some(1)),
            (ENTER, 0, 0, BUTTON1 | BUTTON2, Some(2)),
            (ENTER, 0, 0, BUTTON1 | BUTTON2 | CTRL, None),
        ],
    ),
];

/// The two presses and the two motions of the lists below, with what is selected at them. An idle
/// motion has no bit set, a drag has Button1.
const fn press(selected: Option<usize>) -> Step {
    (PRESS, 1, 0, 0, selected)
}

const fn release(selected: Option<usize>) -> Step {
    (RELEASE, 1, 0, BUTTON1, selected)
}

const fn idle(selected: Option<usize>) -> Step {
    (MOTION, NORMAL, 0, 0, selected)
}

const fn drag(selected: Option<usize>) -> Step {
    (MOTION, NORMAL, 0, BUTTON1, selected)
}

const DRAG: &str = "<Btn1Down>,<Btn1Motion>,<Btn1Up>:x()";

/// R-2, with the readings of it.
const MOTION_LISTS: &[List] = &[
    // "With the action run after each."
    (
        "<Btn1Down>,<Btn1Motion>:x()",
        100,
        &[press(None), drag(Some(0)), drag(Some(0))],
    ),
    // "The context that the earlier one left": idle closed it.
    (
        DRAG,
        100,
        &[press(None), idle(None), drag(None), release(None)],
    ),
    // "A context opened at it is closed": one that starts at it, and not one that it moved.
    (
        "<BtnDown>,<BtnDown>,<BtnUp>:x()\n<BtnDown>,<Motion>,<BtnUp>:y()",
        100,
        &[
            press(None),
            press(None),
            idle(None),
            idle(None),
            release(Some(1)),
        ],
    ),
    (
        "<Btn1Down>,<Motion>Hint:x()\n<Motion>Normal,<Key>a:y()",
        100,
        &[press(None), idle(None), (MOTION, HINT, 0, 0, None)],
    ),
    // "A mark at it, .. of the latest start, falls back by one": to the place before it.
    (
        "<BtnDown>,<BtnDown>,<BtnDown>:x()\n<BtnDown>,<Btn1Motion>,<BtnUp>:y()\n<Motion>,<BtnDown>:z()",
        100,
        &[
            press(None),
            press(None),
            idle(None),
            drag(None),
            release(None),
        ],
    ),
    // "Of the last selection."
    (
        "<BtnDown>,<BtnDown>,<Btn1Motion>:x()\n<BtnDown>,<Motion>,<BtnUp>:y()",
        100,
        &[
            press(None),
            press(None),
            drag(Some(0)),
            idle(None),
            release(None),
        ],
    ),
    // With no context open rule 3 tries every start after both marks.
    (
        "<BtnDown>,<BtnDown>,<BtnDown>:x()\n<BtnDown>,<Btn1Motion>,<BtnUp>:y()",
        100,
        &[
            press(None),
            press(None),
            idle(None),
            drag(None),
            release(Some(1)),
        ],
    ),
    // The fallen mark frees the place.
    (
        "<Btn1Down>,<Btn1Motion>:x()\n<Motion>:y()",
        100,
        &[press(None), drag(Some(0)), idle(Some(1)), drag(Some(1))],
    ),
    // "In the history": dropped and refused events do not part two motions, a heard one does.
    (
        DRAG,
        100,
        &[
            press(None),
            drag(None),
            (ENTER, 0, 0, 0, None),
            drag(None),
            (NO_CODE, 0, 0, 0, None),
            drag(None),
            release(Some(0)),
        ],
    ),
    (
        "<Motion>,<Key>,<Motion>:x()\n<Motion>,<Motion>:y()",
        100,
        &[
            idle(None),
            drag(None),
            (MOTION, HINT, 0, 0, None),
            (KEY, KEYCODE, 0, 0, None),
            idle(Some(0)),
            drag(Some(0)),
        ],
    ),
];

/// A text, the modifier map with one keycode in a row, and a list of calls. The keyboard has also
/// Meta's keys.
type NamedList = (&'static str, [u8; 8], &'static [Step]);

const META_L: u8 = 64;
const META_R: u8 = 65;

const NAMED_LISTS: &[NamedList] = &[
    // "Meta on Mod1" and "Meta on Mod4".
    (
        "Meta<Key>a:x()\n~Meta<Key>a:y()",
        [0, 0, 0, META_L, 0, 0, 0, 0],
        &[
            (KEY, KEYCODE, 0, 0, Some(1)),
            (KEY, KEYCODE, 0, MOD1, Some(0)),
            (KEY, KEYCODE, 0, MOD4, Some(1)),
        ],
    ),
    (
        "Meta<Key>a:x()\n~Meta<Key>a:y()",
        [0, 0, 0, 0, 0, 0, META_R, 0],
        &[
            (KEY, KEYCODE, 0, 0, Some(1)),
            (KEY, KEYCODE, 0, MOD1, Some(1)),
            (KEY, KEYCODE, 0, MOD4, Some(0)),
        ],
    ),
    // "A listed name asks all its bits set; with `~`, all clear."
    (
        "Meta<Key>a:x()\n~Meta<Key>a:y()",
        [0, 0, 0, META_L, META_R, 0, 0, 0],
        &[
            (KEY, KEYCODE, 0, 0, Some(1)),
            (KEY, KEYCODE, 0, MOD1, None),
            (KEY, KEYCODE, 0, MOD2, None),
            (KEY, KEYCODE, 0, MOD1 | MOD2, Some(0)),
        ],
    ),
    // "With `!`, the bits of a listed name count as listed."
    (
        "!Meta<Key>a:x()\nNone<Key>a:y()",
        [0, 0, 0, META_L, 0, 0, 0, 0],
        &[
            (KEY, KEYCODE, 0, MOD1, Some(0)),
            (KEY, KEYCODE, 0, MOD1 | CTRL, None),
            (KEY, KEYCODE, 0, 0, Some(1)),
        ],
    ),
    // "Beside a colon a resolved Shift or Lock isn't tested."
    (
        ":Meta<Key>a:x()\n:Meta<Key>A:y()",
        [META_L, 0, 0, 0, 0, 0, 0, 0],
        &[
            (KEY, KEYCODE, 0, 0, Some(0)),
            (KEY, KEYCODE, 0, SHIFT, Some(1)),
            (KEY, KEYCODE, 0, LOCK, Some(1)),
        ],
    ),
    (
        "Meta<Key>a:x()\nMeta<Key>A:y()",
        [META_L, 0, 0, 0, 0, 0, 0, 0],
        &[
            (KEY, KEYCODE, 0, 0, None),
            (KEY, KEYCODE, 0, SHIFT, Some(1)),
        ],
    ),
    // "Contradicting tests match nothing."
    (
        "Meta ~Mod1<Key>a:x()\n<Key>a:y()",
        [0, 0, 0, META_L, 0, 0, 0, 0],
        &[
            (KEY, KEYCODE, 0, 0, Some(1)),
            (KEY, KEYCODE, 0, MOD1, Some(1)),
        ],
    ),
    // "A name with no bit, listed without `~`, makes its event match nothing", but the event's
    // type is heard.
    (
        "<Btn1Down>,<Btn1Up>:x()\nMeta<Motion>:y()",
        [0; 8],
        &[
            (PRESS, 1, 0, 0, None),
            (MOTION, 0, 5, BUTTON1, None),
            (RELEASE, 1, 10, 0, None),
        ],
    ),
    // "For single click on Button 1 Up with Shift and Meta".
    (
        "Shift Meta <Btn1Down>, Shift Meta<Btn1Up>: gyre()",
        [0, 0, 0, META_L, 0, 0, 0, 0],
        &[
            (PRESS, 1, 0, SHIFT | MOD1, None),
            (RELEASE, 1, 10, SHIFT | MOD1 | BUTTON1, Some(0)),
            (PRESS, 1, 20, SHIFT, None),
            (RELEASE, 1, 30, SHIFT | MOD1, None),
        ],
    ),
];

/// Runs all of them.
pub fn run(comparison: &mut Comparison) -> Compared<()> {
    for text in OF_01.iter().chain(OF_02).chain(OF_APPENDIX_B) {
        run_text(comparison, text).map_err(|message| format!("{:?}: {message}", text.0))?;
    }
    for (text, time, steps) in LISTS.iter().chain(MOTION_LISTS) {
        run_list(comparison, text, *time, [0; 8], steps)
            .map_err(|message| format!("{text:?}: {message}"))?;
    }
    for (text, modifier_map, steps) in NAMED_LISTS {
        run_list(comparison, text, 100, *modifier_map, steps)
            .map_err(|message| format!("{text:?}: {message}"))?;
    }
    drag_of_forty(comparison)?;
    events_in_a_production(comparison)
}

/// "A drag sends forty motion events."
fn drag_of_forty(comparison: &mut Comparison) -> Compared<()> {
    let steps = [
        vec![press(None)],
        vec![drag(None); 40],
        vec![release(Some(0))],
    ]
    .concat();
    run_list(comparison, DRAG, 100, [0; 8], &steps)
}

fn run_text(comparison: &mut Comparison, vector: &Text) -> Compared<()> {
    let &(text, number, place, written) = vector;
    let bytes = text.as_bytes();
    let found = match compile(bytes) {
        Ok(table) => {
            let text = write(&table, &[bytes, b""]).map_err(|number| format!("{number:?}"))?;
            (0, 0, String::from_utf8_lossy(&text).into_owned())
        }
        Err(refusal) => (refusal.number as u8, refusal.place, String::new()),
    };
    ensure(found == (number, place, written.to_string()), || {
        format!("{found:?}")
    })?;
    if let Some(given) = comparison.compile(bytes)? {
        let texts = LentTexts::new(&mut comparison.random, [bytes, b""]);
        for _ in 0..20 {
            comparison.read(&given, &texts)?;
        }
    }
    Ok(())
}

fn run_list(
    comparison: &mut Comparison,
    text: &str,
    multi_click_time: u32,
    modifier_map: [u8; 8],
    steps: &[Step],
) -> Compared<()> {
    let given = comparison.compile(text.as_bytes())?.ok_or("refused")?;
    let mut map = vec![0; MAP_LENGTH];
    let pairs = [
        (KEYCODE, [0x61, 0x41]),
        (META_L, [0xFFE7, 0]),
        (META_R, [0, 0xFFE8]),
    ];
    for (keycode, pair) in pairs {
        let at = 2 * usize::from(keycode - 8);
        map[at..at + 2].copy_from_slice(&pair);
    }
    let list = EventList {
        map,
        modifier_map: modifier_map.to_vec(),
        multi_click_time,
        calls: steps.iter().map(record).collect(),
    };
    let keys = Keys::new(comparison, &list);
    let mut running = comparison.fresh(&given, &keys)?;
    for (at, (call, step)) in list.calls.iter().zip(steps).enumerate() {
        let selected = comparison.call(&given, &keys, &mut running, call)?;
        ensure(selected == step.4, || format!("{selected:?} at event {at}"))?;
    }
    Ok(())
}

fn record(&(code, detail, time, state, _): &Step) -> RecordCall {
    let mut record = vec![0; 32];
    record[0] = code;
    record[if code == ENTER { 30 } else { 1 }] = detail;
    record[4..8].copy_from_slice(&time.to_le_bytes());
    record[28..30].copy_from_slice(&state.to_le_bytes());
    RecordCall {
        record,
        order: b'l',
    }
}

/// "24 events in a production: 0; 25: 11".
fn events_in_a_production(comparison: &mut Comparison) -> Compared<()> {
    for (events, accepted) in [(24, true), (25, false)] {
        let text = format!("{}:x()", vec!["<Map>"; events].join(","));
        let found = comparison.compile(text.as_bytes())?.is_some();
        ensure(found == accepted, || format!("{events} events"))?;
    }
    Ok(())
}
