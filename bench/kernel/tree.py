"""A red-black tree that takes the shapes of the kernel's (lib/rbtree.c). Who walks it compares by himself."""


class Node:
    """A node and what it stands for; `kids` are its left and right child."""

    def __init__(self, value):
        self.value, self.parent, self.kids, self.is_red = value, None, [None, None], True

    def side(self):
        """Which child of its parent it is."""
        return int(self.parent.kids[1] is self)


def is_red(node):
    """Tells it of a node or of none, which is black."""
    return node is not None and node.is_red


class Tree:
    """A tree by its root."""

    def __init__(self):
        self.root = None

    def replace(self, node, other):
        """Puts another node, or none, where a node hangs."""
        if node.parent:
            node.parent.kids[node.side()] = other
        else:
            self.root = other
        if other:
            other.parent = node.parent

    def rotate(self, node, side):
        """The node goes down on the side, and its other child comes up."""
        up = node.kids[1 - side]
        node.kids[1 - side] = up.kids[side]
        if up.kids[side]:
            up.kids[side].parent = node
        self.replace(node, up)
        up.kids[side], node.parent = node, up

    def link(self, node, parent, side):
        """rb_link_node and rb_insert_color"""
        node.parent, node.kids, node.is_red = parent, [None, None], True
        if parent:
            parent.kids[side] = node
        else:
            self.root = node
        while is_red(node.parent):
            parent, grand = node.parent, node.parent.parent
            side = parent.side()
            uncle = grand.kids[1 - side]
            if is_red(uncle):
                parent.is_red = uncle.is_red = False
                grand.is_red, node = True, grand
                continue
            if node.side() != side:
                self.rotate(parent, side)
                node, parent = parent, node
            parent.is_red, grand.is_red = False, True
            self.rotate(grand, 1 - side)
        self.root.is_red = False

    def erase(self, node):
        """rb_erase"""
        left, right = node.kids
        if not left or not right:
            child, parent, was_red = left or right, node.parent, node.is_red
            self.replace(node, child)
        else:
            heir = right
            while heir.kids[0]:
                heir = heir.kids[0]
            child, was_red = heir.kids[1], heir.is_red
            parent = heir if heir is right else heir.parent
            if heir is not right:
                self.replace(heir, child)
                heir.kids[1], right.parent = right, heir
            self.replace(node, heir)
            heir.kids[0], left.parent, heir.is_red = left, heir, node.is_red
        if not was_red:
            self.balance(child, parent)

    def balance(self, node, parent):
        """____rb_erase_color: paths through the node, which may be none, have a black one too few."""
        while parent and not is_red(node):
            side = int(parent.kids[0] is not node)
            sibling = parent.kids[1 - side]
            if sibling.is_red:
                sibling.is_red, parent.is_red = False, True
                self.rotate(parent, side)
                sibling = parent.kids[1 - side]
            if not is_red(sibling.kids[0]) and not is_red(sibling.kids[1]):
                sibling.is_red, node, parent = True, parent, parent.parent
                continue
            if not is_red(sibling.kids[1 - side]):
                sibling.kids[side].is_red, sibling.is_red = False, True
                self.rotate(sibling, 1 - side)
                sibling = parent.kids[1 - side]
            sibling.is_red, parent.is_red, sibling.kids[1 - side].is_red = parent.is_red, False, False
            self.rotate(parent, side)
            return
        if node:
            node.is_red = False
