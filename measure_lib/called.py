"""How the programs and the document are called: in a checkout, or where the package is installed."""

import os

IS_CHECKOUT = os.path.exists(os.path.join(os.path.dirname(os.path.dirname(os.path.abspath(__file__))), "ksmbook"))
NAME = "measure" if IS_CHECKOUT else "ksmbook-measure"
MEASURE, KSMBOOK = ("./measure", "./ksmbook") if IS_CHECKOUT else ("ksmbook-measure", "ksmbook")
DOCUMENT = "docs/MEASURE.md" if IS_CHECKOUT else "man ksmbook-measure"
