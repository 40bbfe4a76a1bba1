# strict lets one pixel too many pass
s/if count > remaining \&\& self.settings.strict/if count > remaining.saturating_add(1) \&\& self.settings.strict/
