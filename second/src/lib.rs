//! The second program: document 01 once more, with requests §1, §3, §4, §6 and §13 of document
//! 02, written from the documents alone. Each module follows one of document 01's headings; `calls`
//! and `list` are its two programs. `section`, `entry` and `site` are questions of our own, which a
//! tool for people asks, and `editfile` is the edit that it writes; `report` answers what that tool
//! prints in JSON, and `page` judges its pages.

pub mod body;
pub mod bytes;
pub mod calls;
pub mod check;
pub mod edit;
pub mod edition;
pub mod entry;
pub mod gen;
pub mod group;
pub mod list;
pub mod lookup;
pub mod page;
pub mod place;
pub mod plays;
pub mod ranges;
pub mod record;
pub mod refusal;
pub mod report;
pub mod salvage;
pub mod screen;
pub mod script;
pub mod sdec;
pub mod section;
pub mod site;
pub mod style;
pub mod voice;
pub mod write;
