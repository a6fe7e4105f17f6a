"""The library under one name, on which the other files of this directory stand.

Written from documents 01 and 02 (and their readings, docs/READINGS.md, where they can be read two
ways) and from nothing else, so that its answers can be compared with those of the proved library.
"""

from account import *
from coding import *
from facility import *
from lines import *
from reading import *
from records import *
from writing import *
