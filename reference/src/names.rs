//! Names of modifiers and event types (01, "The text"; 001, "Modifier Names", "Event Types"; 02,
//!

use crate::modifiers::{
    BUTTON1, BUTTON2, BUTTON3, BUTTON4, BUTTON5, CTRL, LOCK, MOD1, MOD2, MOD3, MOD4, MOD5, SHIFT,
};

pub const KEY_PRESS: u8 = 2;
pub const KEY_RELEASE: u8 = 3;
pub const BUTTON_PRESS: u8 = 4;
pub const BUTTON_RELEASE: u8 = 5;
pub const MOTION_NOTIFY: u8 = 6;
pub const ENTER_NOTIFY: u8 = 7;
pub const LEAVE_NOTIFY: u8 = 8;
pub const FOCUS_IN: u8 = 9;
pub const FOCUS_OUT: u8 = 10;
pub const PROPERTY_NOTIFY: u8 = 28;
pub const SELECTION_NOTIFY: u8 = 31;
pub const CLIENT_MESSAGE: u8 = 33;
pub const MAPPING_NOTIFY: u8 = 34;

pub const FIRST_CODE: u8 = KEY_PRESS;
pub const LAST_CODE: u8 = MAPPING_NOTIFY;

pub fn is_key(code: u8) -> bool {
    matches!(code, KEY_PRESS | KEY_RELEASE)
}

pub fn is_key_or_button(code: u8) -> bool {
    is_key(code) || matches!(code, BUTTON_PRESS | BUTTON_RELEASE)
}

/// The codes 2..8, whose events have a modifier state and take a modifier list.
pub fn has_state(code: u8) -> bool {
    (KEY_PRESS..=LEAVE_NOTIFY).contains(&code)
}

/// A modifier that has bits only under a keyboard's maps (02, R-1). The order is the writer's.
#[derive(Clone, Copy, Debug, PartialEq, Eq, PartialOrd, Ord)]
pub enum Name {
    Meta,
    Alt,
    Hyper,
    Super,
    /// `@` with a keysym.
    Keysym(u32),
}

/// Meta and its relatives, without `@`.
pub const RELATIVES: [Name; 4] = [Name::Meta, Name::Alt, Name::Hyper, Name::Super];

impl Name {
    /// The keysyms that the name means, the left and the right one (values from keysymdef.h).
    pub fn keysyms(self) -> [u32; 2] {
        match self {
            Name::Meta => [0xFFE7, 0xFFE8],
            Name::Alt => [0xFFE9, 0xFFEA],
            Name::Hyper => [0xFFED, 0xFFEE],
            Name::Super => [0xFFEB, 0xFFEC],
            Name::Keysym(keysym) => [keysym, keysym],
        }
    }

    /// The name as the writer gives it: "`@` with hexadecimal keysyms".
    pub fn canonical(self) -> String {
        match self {
            Name::Meta => "Meta".to_string(),
            Name::Alt => "Alt".to_string(),
            Name::Hyper => "Hyper".to_string(),
            Name::Super => "Super".to_string(),
            Name::Keysym(keysym) => format!("@{keysym:#x}"),
        }
    }
}

/// What a modifier name stands for.
#[derive(Clone, Copy, Debug, PartialEq, Eq)]
pub enum Modifier {
    Bit(u16),
    Name(Name),
}

/// The canonical names of bits in the writer's order, their short forms, and Meta and its
/// relatives. `None` and `Any` are the grammar's.
pub const MODIFIERS: &[(&str, Modifier)] = &[
    ("Ctrl", Modifier::Bit(CTRL)),
    ("Shift", Modifier::Bit(SHIFT)),
    ("Lock", Modifier::Bit(LOCK)),
    ("Mod1", Modifier::Bit(MOD1)),
    ("Mod2", Modifier::Bit(MOD2)),
    ("Mod3", Modifier::Bit(MOD3)),
    ("Mod4", Modifier::Bit(MOD4)),
    ("Mod5", Modifier::Bit(MOD5)),
    ("Button1", Modifier::Bit(BUTTON1)),
    ("Button2", Modifier::Bit(BUTTON2)),
    ("Button3", Modifier::Bit(BUTTON3)),
    ("Button4", Modifier::Bit(BUTTON4)),
    ("Button5", Modifier::Bit(BUTTON5)),
    ("c", Modifier::Bit(CTRL)),
    ("s", Modifier::Bit(SHIFT)),
    ("l", Modifier::Bit(LOCK)),
    ("Meta", Modifier::Name(Name::Meta)),
    ("m", Modifier::Name(Name::Meta)),
    ("Hyper", Modifier::Name(Name::Hyper)),
    ("h", Modifier::Name(Name::Hyper)),
    ("Super", Modifier::Name(Name::Super)),
    ("su", Modifier::Name(Name::Super)),
    ("Alt", Modifier::Name(Name::Alt)),
    ("a", Modifier::Name(Name::Alt)),
];

/// The canonical names of bits are the first so many of `MODIFIERS`, all names of bits so many.
pub const CANONICAL_MODIFIERS: usize = 13;
pub const BIT_MODIFIERS: usize = 16;

pub fn modifier(name: &[u8]) -> Option<Modifier> {
    MODIFIERS
        .iter()
        .find(|(known, _)| known.as_bytes() == name)
        .map(|&(_, modifier)| modifier)
}

/// What an event type's name adds to the modifier test.
#[derive(Clone, Copy, Debug, PartialEq, Eq)]
pub enum Adds {
    Nothing,
    Bit(u16),
    /// `<BtnMotion>`: at least one button.
    AnyButton,
    /// `<Meta>`: "`<Meta>` and `$` read as Meta listed".
    Name(Name),
}

/// A name of an event type.
#[derive(Clone, Copy, Debug, PartialEq, Eq)]
pub struct EventType {
    pub name: &'static str,
    pub code: u8,
    pub adds: Adds,
    /// A detail that the name fixes; a written one is then refused.
    pub detail: Option<u32>,
}

/// The canonical name of a code is the first with that code.
pub const EVENT_TYPES: &[EventType] = &[
    plain("KeyPress", 2),
    plain("KeyRelease", 3),
    plain("ButtonPress", 4),
    plain("ButtonRelease", 5),
    plain("MotionNotify", 6),
    plain("EnterNotify", 7),
    plain("LeaveNotify", 8),
    plain("FocusIn", 9),
    plain("FocusOut", 10),
    plain("KeymapNotify", 11),
    plain("Expose", 12),
    plain("GraphicsExpose", 13),
    plain("NoExpose", 14),
    plain("VisibilityNotify", 15),
    plain("CreateNotify", 16),
    plain("DestroyNotify", 17),
    plain("UnmapNotify", 18),
    plain("MapNotify", 19),
    plain("MapRequest", 20),
    plain("ReparentNotify", 21),
    plain("ConfigureNotify", 22),
    plain("ConfigureRequest", 23),
    plain("GravityNotify", 24),
    plain("ResizeRequest", 25),
    plain("CirculateNotify", 26),
    plain("CirculateRequest", 27),
    plain("PropertyNotify", 28),
    plain("SelectionClear", 29),
    plain("SelectionRequest", 30),
    plain("SelectionNotify", 31),
    plain("ColormapNotify", 32),
    plain("ClientMessage", 33),
    plain("MappingNotify", 34),
    // Synonyms.
    plain("Key", 2),
    plain("KeyDown", 2),
    plain("KeyUp", 3),
    plain("BtnDown", 4),
    plain("BtnUp", 5),
    plain("Motion", 6),
    plain("PtrMoved", 6),
    plain("MouseMoved", 6),
    plain("Enter", 7),
    plain("EnterWindow", 7),
    plain("Leave", 8),
    plain("LeaveWindow", 8),
    plain("Keymap", 11),
    plain("GrExp", 13),
    plain("NoExp", 14),
    plain("Visible", 15),
    plain("Create", 16),
    plain("Destroy", 17),
    plain("Unmap", 18),
    plain("Map", 19),
    plain("MapReq", 20),
    plain("Reparent", 21),
    plain("Configure", 22),
    plain("ConfigureReq", 23),
    plain("Grav", 24),
    plain("ResReq", 25),
    plain("Circ", 26),
    plain("CircReq", 27),
    plain("Prop", 28),
    plain("SelClr", 29),
    plain("SelReq", 30),
    plain("Select", 31),
    plain("Clrmap", 32),
    plain("Message", 33),
    plain("Mapping", 34),
    // Abbreviations.
    adding("Ctrl", 2, Adds::Bit(CTRL)),
    adding("Meta", 2, Adds::Name(Name::Meta)),
    adding("Shift", 2, Adds::Bit(SHIFT)),
    fixing("Btn1Down", 4, 1),
    fixing("Btn1Up", 5, 1),
    fixing("Btn2Down", 4, 2),
    fixing("Btn2Up", 5, 2),
    fixing("Btn3Down", 4, 3),
    fixing("Btn3Up", 5, 3),
    fixing("Btn4Down", 4, 4),
    fixing("Btn4Up", 5, 4),
    fixing("Btn5Down", 4, 5),
    fixing("Btn5Up", 5, 5),
    adding(BTN_MOTION, 6, Adds::AnyButton),
    adding("Btn1Motion", 6, Adds::Bit(BUTTON1)),
    adding("Btn2Motion", 6, Adds::Bit(BUTTON2)),
    adding("Btn3Motion", 6, Adds::Bit(BUTTON3)),
    adding("Btn4Motion", 6, Adds::Bit(BUTTON4)),
    adding("Btn5Motion", 6, Adds::Bit(BUTTON5)),
];

/// "`<BtnMotion>` has no canonical name and keeps its own."
pub const BTN_MOTION: &str = "BtnMotion";

const fn plain(name: &'static str, code: u8) -> EventType {
    adding(name, code, Adds::Nothing)
}

const fn adding(name: &'static str, code: u8, adds: Adds) -> EventType {
    EventType {
        name,
        code,
        adds,
        detail: None,
    }
}

const fn fixing(name: &'static str, code: u8, detail: u32) -> EventType {
    EventType {
        name,
        code,
        adds: Adds::Nothing,
        detail: Some(detail),
    }
}

pub fn event_type(name: &[u8]) -> Option<&'static EventType> {
    EVENT_TYPES
        .iter()
        .find(|known| known.name.as_bytes() == name)
}

pub fn canonical_event_type(code: u8) -> &'static str {
    EVENT_TYPES
        .iter()
        .find(|known| known.code == code)
        .expect("every code 2..34 has a name")
        .name
}
