
std::thread_local! {
    /// What `stage` recorded since the list was last taken.
    pub static STAGES: std::cell::RefCell<Vec<String>> = const { std::cell::RefCell::new(vec![]) };
}

/// Records the state of the graph in the form of `second --stages`.
pub fn stage<P: Ptr>(name: &str, dag: &triple_arena::Arena<P, internal::ANode<P>>) {
    let mut line = name.to_string();
    match name {
        "completed" | "cut" => {
            line += &format!(" {}", dag.len());
            for (p, node) in dag {
                line += &format!(" | {} src", p.inx());
                for edge in &node.sources {
                    let mark = edge.i.map_or("-".to_string(), |i| i.to_string());
                    line += &format!(" {}:{mark}", edge.to.inx());
                }
                line += " snk";
                for edge in &node.sinks {
                    line += &format!(" {}", edge.to.inx());
                }
            }
        }
        "heights" => {
            for node in dag.vals() {
                line += &format!(" {}", node.grid_position.1);
            }
        }
        _ => {
            for node in dag.vals() {
                line += &format!(" {}", node.grid_position.0);
            }
        }
    }
    STAGES.with_borrow_mut(|stages| stages.push(line));
}
