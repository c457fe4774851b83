"""A module a view: functions from what is known to what its template shows. None of them reads or writes anything."""
