"""A second reading of docs/language, docs/jobs.md, docs/rings.md and docs/reports.md: what `td` answers to an input.

It shares nothing with the program: it is short and slow, and was written from those pages. checks/compare runs both on the
same inputs. What JSON is, is Python's reading here, and serde_json's in the program; the inputs that are compared avoid the
corners in which these two differ (lone surrogates, numbers past a float's range, deep nesting).
"""

from .answers import answer

__all__ = ["answer"]
