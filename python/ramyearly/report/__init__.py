"""A site as one page with pictures: a function of the site and of what planning answered."""

from .page import page

__all__ = ["page"]
