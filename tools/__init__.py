"""Parts of the scripts beside the program. Nothing here is proved: the scripts are worth what checks/explain, checks/scripts and checks/tools
show of them. What they know of the language they have from checks/lib/reference, the second reading."""

import os
import sys

TOP = os.path.dirname(os.path.dirname(os.path.realpath(__file__)))
sys.path.append(os.path.join(TOP, "checks/lib"))
