"""The pictures of a report. All of them have one scale of time, so that they align under each other.

Each function answers the text of an SVG picture that can stand in a file by itself.
"""

from .clock_picture import clock
from .job_picture import jobs
from .load_picture import load

__all__ = ["clock", "jobs", "load"]
