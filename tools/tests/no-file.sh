explain nothing.in; to-ibsim nothing.in; compare nothing.in
