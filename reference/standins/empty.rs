// Stands in for a module that the analytic path does not use.
