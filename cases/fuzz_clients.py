"""What the maker of random scripts (fuzz_scripts) remembers of each session."""


class Client:
    """What the maker remembers of a session, so that most of its calls are allowed."""

    def __init__(self, name):
        self.name, self.view = name, False
        self.transforms, self.fills, self.images, self.viewports = [], [], [], []
        self.children = set()
        self.buffers, self.fences, self.views_of, self.viewports_of = [], [], [], []
        # about how many presents it may make, and which of those that wait are ready
        self.credits, self.waiting, self.made, self.taken = 1, [], 0, 0

    def begin(self):
        """A frame takes the presents that are ready, and gives credits back."""
        while self.waiting and self.waiting[0]:
            self.waiting.pop(0)
            self.credits += 1 if self.taken else 5
            self.taken += 1

    def presents(self, is_ready):
        self.credits -= 1
        self.made += 1
        self.waiting.append(is_ready)
