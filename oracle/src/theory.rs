//! Stand-in for the theory: a bare table of the job's thresholds. It admits what
//! the original's would not, a threshold that lists itself or a later node.

include!(concat!(env!("OUT_DIR"), "/core/numeric.rs"));

/// One threshold of the job, its areas joined; zeros and repetitions stand in its list.
#[derive(Clone, Debug)]
pub struct RawThreshold {
    pub node: usize,
    pub bound: i128,
    pub conditions: Vec<usize>,
    pub weights: Vec<u64>,
}

pub enum NodeView<'a> {
    Threshold(Threshold<'a>),
    Other,
}

/// What a node says of itself: its descriptor if it is a threshold.
#[derive(Clone, Copy, Debug, Default)]
pub struct Node(Option<usize>);

impl Node {
    pub fn threshold_descriptor(self) -> Option<usize> {
        self.0
    }
}

#[derive(Debug)]
pub struct Descriptor {
    pub row: usize,
}

#[derive(Debug)]
pub struct Parts {
    thresholds: Vec<Descriptor>,
    raw: Vec<RawThreshold>,
}

impl Parts {
    pub fn thresholds(&self) -> &[Descriptor] {
        &self.thresholds
    }

    /// Every threshold has a source row of its own; sharing is left to `prepare`.
    pub fn rows(&self) -> &[RawThreshold] {
        &self.raw
    }
}

#[derive(Debug)]
pub struct Theory {
    nodes: Vec<Node>,
    parts: Parts,
}

impl Theory {
    pub fn of_job(nodes: usize, raw: Vec<RawThreshold>) -> Self {
        let mut table = vec![Node::default(); nodes];
        for (descriptor, threshold) in raw.iter().enumerate() {
            table[threshold.node] = Node(Some(descriptor));
        }
        let thresholds = (0..raw.len()).map(|row| Descriptor { row }).collect();
        Self { nodes: table, parts: Parts { thresholds, raw } }
    }

    pub fn nodes(&self) -> &[Node] {
        &self.nodes
    }

    pub fn parts(&self) -> &Parts {
        &self.parts
    }

    pub fn view(&self) -> View<'_> {
        View(self)
    }

    /// The bound, if the node is a threshold.
    pub fn bound(&self, node: usize) -> Option<i128> {
        self.nodes[node].0.map(|descriptor| self.parts.raw[descriptor].bound)
    }
}

#[derive(Clone, Copy)]
pub struct View<'a>(&'a Theory);

impl<'a> View<'a> {
    pub fn len(self) -> usize {
        self.0.nodes.len()
    }

    pub fn node(self, node: usize) -> Result<NodeView<'a>, ()> {
        let Some(descriptor) = self.0.nodes.get(node).ok_or(())?.0 else {
            return Ok(NodeView::Other);
        };
        let raw = &self.0.parts.raw[descriptor];
        Ok(NodeView::Threshold(Threshold {
            conditions: &raw.conditions,
            weights: &raw.weights,
            bound: raw.bound,
        }))
    }
}
