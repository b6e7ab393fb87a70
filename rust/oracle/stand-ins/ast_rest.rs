// Stand-in for the part of ast.rs that the listed file does not hold: the records of a query and
// of a module that scheduler.rs, traversal.rs and utils.rs name, with the fields they read.

pub type ExprRef = Ref<Expr>;

#[derive(Debug)]
pub enum Literal {
    SomeVars {
        span: Span,
        vars: Vec<Span>,
    },
    SomeIn {
        span: Span,
        key: Option<Ref<Expr>>,
        value: Ref<Expr>,
        collection: Ref<Expr>,
    },
    Expr {
        span: Span,
        expr: Ref<Expr>,
    },
    NotExpr {
        span: Span,
        expr: Ref<Expr>,
    },
    Every {
        span: Span,
        key: Option<Span>,
        value: Span,
        domain: Ref<Expr>,
        query: Ref<Query>,
    },
}

#[derive(Debug)]
pub struct WithModifier {
    pub span: Span,
    pub refr: Ref<Expr>,
    pub r#as: Ref<Expr>,
}

#[derive(Debug)]
pub struct LiteralStmt {
    pub span: Span,
    pub literal: Literal,
    pub with_mods: Vec<WithModifier>,
    pub sidx: u32,
}

#[derive(Debug)]
pub struct Query {
    pub span: Span,
    pub stmts: Vec<LiteralStmt>,
    pub qidx: u32,
}

impl Query {
    /// Hands over what stands right below, so that a deep tree is released without recursion.
    fn detach_children(&mut self, pending: &mut Vec<OwnedAstNode>) {
        for stmt in core::mem::take(&mut self.stmts) {
            for modifier in stmt.with_mods {
                pending.push(OwnedAstNode::Expr(modifier.refr));
                pending.push(OwnedAstNode::Expr(modifier.r#as));
            }
            match stmt.literal {
                Literal::SomeVars { .. } => {}
                Literal::SomeIn {
                    key,
                    value,
                    collection,
                    ..
                } => {
                    pending.extend(key.map(OwnedAstNode::Expr));
                    pending.push(OwnedAstNode::Expr(value));
                    pending.push(OwnedAstNode::Expr(collection));
                }
                Literal::Expr { expr, .. } | Literal::NotExpr { expr, .. } => {
                    pending.push(OwnedAstNode::Expr(expr));
                }
                Literal::Every { domain, query, .. } => {
                    pending.push(OwnedAstNode::Expr(domain));
                    pending.push(OwnedAstNode::Query(query));
                }
            }
        }
    }
}

impl Drop for Query {
    fn drop(&mut self) {
        let mut pending = Vec::new();
        self.detach_children(&mut pending);
        release_ast(&mut pending);
    }
}

pub struct RuleAssign {
    pub value: Ref<Expr>,
}

pub struct RuleBody {
    pub assign: Option<RuleAssign>,
    pub query: Ref<Query>,
}

pub enum RuleHead {
    Compr {
        refr: Ref<Expr>,
        assign: Option<RuleAssign>,
    },
    Set {
        refr: Ref<Expr>,
        key: Option<Ref<Expr>>,
    },
    Func {
        refr: Ref<Expr>,
        args: Vec<Ref<Expr>>,
        assign: Option<RuleAssign>,
    },
}

pub enum Rule {
    Spec {
        span: Span,
        head: RuleHead,
        bodies: Vec<RuleBody>,
    },
    Default {
        refr: Ref<Expr>,
        value: Ref<Expr>,
    },
}

pub struct Package {
    pub refr: Ref<Expr>,
}

pub struct Import {
    pub refr: Ref<Expr>,
    pub r#as: Option<Span>,
}

pub struct Module {
    pub package: Package,
    pub imports: Vec<Import>,
    pub policy: Vec<Ref<Rule>>,
    pub num_queries: u32,
}
