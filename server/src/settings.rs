//! What a person may choose: `{"style": true}` in the client's settings for `spoonharbor`.

use crate::params::{at, is_true};
use serde_json::Value;
use spoonharbor::diagnostic::Checks;

/// The choices; each has the value that it has where nothing is said.
#[derive(Debug, Clone, Default)]
pub struct Settings {
    /// What is looked for besides refusals and warnings.
    pub checks: Checks,
}

impl Settings {
    /// By what a client sends: the settings themselves, or below `spoonharbor`.
    pub fn of(sent: &Value) -> Settings {
        let own = at(sent, "spoonharbor").unwrap_or(sent);
        let mut checks = Checks::default();
        checks.style = is_true(own, "style");
        Settings { checks }
    }
}

#[cfg(test)]
mod tests {
    use super::*;
    use serde_json::json;

    #[test]
    fn settings_stand_alone_or_below_a_name() {
        let style = |sent: Value| Settings::of(&sent).checks.style;
        assert!(style(json!({ "style": true })));
        assert!(style(json!({ "spoonharbor": { "style": true } })));
        assert!(!style(json!({ "style": "yes" })));
        assert!(!style(Value::Null));
    }
}
