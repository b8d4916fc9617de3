//! Figures by name: in a line of words, and as JSON.

use reducer::{Graph, Refusal, Size};

#[derive(Clone, Debug, PartialEq, Eq)]
pub enum Value {
    Nothing,
    Truth(bool),
    Number(i64),
    Text(String),
    List(Vec<Value>),
    Named(Figures),
}

/// Names and what they stand for, in the order in which they are told.
#[derive(Clone, Debug, Default, PartialEq, Eq)]
pub struct Figures(Vec<(&'static str, Value)>);

/// A text of JSON.
pub fn literal(text: &str) -> String {
    let escaped = text.chars().map(|sign| match sign {
        '"' => "\\\"".into(),
        '\\' => "\\\\".into(),
        sign if sign < ' ' => format!("\\u{:04x}", sign as u32),
        sign => sign.to_string(),
    });
    format!("\"{}\"", escaped.collect::<String>())
}

impl Value {
    fn json(&self) -> String {
        match self {
            Value::Nothing => "null".into(),
            Value::Truth(truth) => truth.to_string(),
            Value::Number(number) => number.to_string(),
            Value::Text(text) => literal(text),
            Value::List(values) => format!("[{}]", values.iter().map(Value::json).collect::<Vec<_>>().join(", ")),
            Value::Named(figures) => figures.json(),
        }
    }
}

impl Figures {
    pub fn with(mut self, name: &'static str, value: impl Into<Value>) -> Figures {
        self.0.push((name, value.into()));
        self
    }

    /// With those of another after its own.
    pub fn and(mut self, more: Figures) -> Figures {
        self.0.extend(more.0);
        self
    }

    pub fn of(name: &'static str, value: impl Into<Value>) -> Figures {
        Figures::default().with(name, value)
    }

    pub fn sizes(graph: &Graph) -> Figures {
        let Size { inputs, nodes, outputs } = graph.size;
        Figures::of("inputs", inputs).with("nodes", nodes).with("outputs", outputs)
    }

    /// With how many nodes are locked.
    pub fn locked(self, graph: &Graph) -> Figures {
        self.with("locked", graph.locked())
    }

    /// With the complemented edges.
    pub fn complemented(self, graph: &Graph) -> Result<Figures, Refusal> {
        Ok(self.with("complemented", graph.complemented_edges()?))
    }

    /// The numbers in words; that none is locked is not said.
    pub fn words(&self) -> String {
        let told = self.0.iter().filter_map(|(name, value)| match value {
            Value::Number(0) if *name == "locked" => None,
            Value::Number(number) => Some(format!("{name} {number}")),
            _ => None,
        });
        told.collect::<Vec<String>>().join(" ")
    }

    /// A line for each that has names of its own.
    pub fn lines(&self) -> Vec<String> {
        let line = |(name, value): &(&str, Value)| match value {
            Value::Named(figures) => Some(format!("{name} {}", figures.words())),
            _ => None,
        };
        self.0.iter().filter_map(line).collect()
    }

    pub fn json(&self) -> String {
        let members = self.0.iter().map(|(name, value)| format!("{}: {}", literal(name), value.json()));
        format!("{{{}}}", members.collect::<Vec<String>>().join(", "))
    }
}

impl From<bool> for Value {
    fn from(truth: bool) -> Value {
        Value::Truth(truth)
    }
}

impl From<u8> for Value {
    fn from(number: u8) -> Value {
        Value::Number(number.into())
    }
}

impl From<u32> for Value {
    fn from(number: u32) -> Value {
        Value::Number(number.into())
    }
}

impl From<i64> for Value {
    fn from(number: i64) -> Value {
        Value::Number(number)
    }
}

impl From<usize> for Value {
    fn from(number: usize) -> Value {
        Value::Number(number as i64)
    }
}

impl From<&str> for Value {
    fn from(text: &str) -> Value {
        Value::Text(text.into())
    }
}

impl From<Figures> for Value {
    fn from(figures: Figures) -> Value {
        Value::Named(figures)
    }
}

impl<T: Into<Value>> From<Option<T>> for Value {
    fn from(value: Option<T>) -> Value {
        value.map_or(Value::Nothing, T::into)
    }
}

impl<T: Into<Value>> FromIterator<T> for Value {
    fn from_iter<I: IntoIterator<Item = T>>(values: I) -> Value {
        Value::List(values.into_iter().map(T::into).collect())
    }
}

#[cfg(test)]
mod tests {
    use super::*;

    #[test]
    fn words_and_json() {
        let inner = Figures::of("nodes", 15u32).with("locked", 2u32);
        let all = Figures::of("before", -4i64).with("after", inner).with("locked", 0u32).with("same", true);
        assert_eq!(all.words(), "before -4");
        assert_eq!(all.lines(), ["after nodes 15 locked 2"]);
        let json = "{\"before\": -4, \"after\": {\"nodes\": 15, \"locked\": 2}, \"locked\": 0, \"same\": true}";
        assert_eq!(all.json(), json);
        let other = Figures::of("why", "a \"b\"\n")
            .with("root", None::<u32>)
            .with("at", [7u32, 9].into_iter().collect::<Value>());
        assert_eq!(other.json(), "{\"why\": \"a \\\"b\\\"\\u000a\", \"root\": null, \"at\": [7, 9]}");
        assert_eq!((Figures::default().json(), Figures::default().words()), ("{}".into(), String::new()));
        assert_eq!(literal("\\\u{1}\u{e9}"), "\"\\\\\\u0001\u{e9}\"");
    }
}
