"""The command sfq-audit: it compares other engines with sfq, whose answers are proved.

`families` makes hard pairs, `engines` asks others, `comparing` finds where they differ, `smaller` makes such a pair as small as it
goes, and `reports` writes what was found.
"""
