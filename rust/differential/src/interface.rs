//! How a packed graph is put among the arguments of a function of the C interface.

/// A call on a graph, with these arguments behind it. Every slice is one that may change, so that the caller can see whether it did.
macro_rules! on_graph {
    ($name:ident, $g:expr $(, $more:expr)*) => {{
        let g = $g;
        unsafe {
            reducer::raw::$name(
                g.inputs,
                g.nodes,
                g.outputs,
                g.node_table.as_mut_ptr(),
                g.node_table.len(),
                g.node_bits.as_mut_ptr(),
                g.node_bits.len(),
                g.output_table.as_mut_ptr(),
                g.output_table.len(),
                g.output_bits.as_mut_ptr(),
                g.output_bits.len(),
                g.locks.as_mut_ptr(),
                g.locks.len(),
                $($more),*
            )
        }
    }};
}

/// A call that fills what is lent for a graph, with these arguments before it and behind it.
macro_rules! filling {
    ($name:ident, ($($first:expr),*), $g:expr, ($($more:expr),*)) => {{
        let g = $g;
        unsafe {
            reducer::raw::$name(
                $($first,)*
                g.node_table.as_mut_ptr(),
                g.node_table.len(),
                g.node_bits.as_mut_ptr(),
                g.node_bits.len(),
                g.output_table.as_mut_ptr(),
                g.output_table.len(),
                g.output_bits.as_mut_ptr(),
                g.output_bits.len(),
                g.locks.as_mut_ptr(),
                g.locks.len(),
                $($more),*
            )
        }
    }};
}

/// A call on two graphs, with these arguments behind them.
macro_rules! on_graphs {
    ($name:ident, $g:expr, $h:expr $(, $more:expr)*) => {{
        let h = $h;
        on_graph!(
            $name,
            $g,
            h.inputs,
            h.nodes,
            h.outputs,
            h.node_table.as_mut_ptr(),
            h.node_table.len(),
            h.node_bits.as_mut_ptr(),
            h.node_bits.len(),
            h.output_table.as_mut_ptr(),
            h.output_table.len(),
            h.output_bits.as_mut_ptr(),
            h.output_bits.len(),
            h.locks.as_mut_ptr(),
            h.locks.len()
            $(, $more)*
        )
    }};
}

pub(crate) use {filling, on_graph, on_graphs};
