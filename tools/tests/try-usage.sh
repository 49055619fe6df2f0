try one two
